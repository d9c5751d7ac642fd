/* What the tests of the store share. */
#define _DEFAULT_SOURCE
#include "common.h"

#include <libpq-fe.h>
#include <sqlite3.h>
#include <stdarg.h>
#include <time.h>

const char *name;
nutrameza_store *store;
uint8_t image[NUTRAMEZA_MAX_IMAGE_BYTES];
int wrong;
static uint64_t seed = 1;

void must(const char *file, int line, int so, const char *what)
{
    if (so)
        return;
    wrong++;
    printf("%s:%d: not so: %s (%s)\n", file, line, what, nutrameza_store_error(store));
}

void is(const char *file, int line, uint64_t got, uint64_t wanted, const char *what)
{
    if (got == wanted)
        return;
    wrong++;
    printf("%s:%d: %s is %lu (%u %s), not %lu (%s)\n", file, line, what, (unsigned long)got, nutrameza_number_of(got),
           nutrameza_store_word_of(nutrameza_number_of(got)), (unsigned long)wanted, nutrameza_store_error(store));
}

uint64_t random64(void)
{
    seed ^= seed << 13;
    seed ^= seed >> 7;
    return seed ^= seed << 17;
}

void new_token(uint8_t *token)
{
    nms_put_number(token, random64());
    nms_put_number(token + 8, random64());
}

double now(void)
{
    struct timespec t;
    clock_gettime(CLOCK_MONOTONIC, &t);
    return (double)t.tv_sec + 1e-9 * (double)t.tv_nsec;
}

void nap(double seconds)
{
    struct timespec t = {(time_t)seconds, (long)((seconds - (double)(time_t)seconds) * 1e9)};
    nanosleep(&t, NULL);
}

static void die(const char *what, uint64_t returned)
{
    printf("%s: %u %s (%s)\n", what, nutrameza_number_of(returned),
           nutrameza_store_word_of(nutrameza_number_of(returned)), nutrameza_store_error(store));
    fflush(stdout);
    _exit(1);
}

nutrameza_store *another(const char *host)
{
    nutrameza_store *s = NULL;
    uint64_t returned = NUTRAMEZA_STORE_FAILED;
    for (int tries = 0; tries < 300; tries++) {
        returned = nutrameza_store_connect(name, host, &s);
        if (returned == NUTRAMEZA_STORE_SCHEMA)
            returned = nutrameza_store_make(s);
        if (returned == 0)
            return s;
        if (nutrameza_number_of(returned) != NUTRAMEZA_STORE_FAILED)
            break;
        nutrameza_store_disconnect(s);
        nap(0.05);
    }
    store = NULL;
    die("connect", returned);
    return NULL;
}

void connect_named(const char *host)
{
    struct timespec t;
    clock_gettime(CLOCK_REALTIME, &t);
    seed = (uint64_t)t.tv_nsec * 2654435761u + (uint64_t)t.tv_sec * 977 + (uint64_t)getpid() * 7919 + 1;
    store = another(host);
}

void hang_up(void)
{
    nutrameza_store_disconnect(store);
    store = NULL;
}

void connect_as(const char *what, int n)
{
    char host[60];
    snprintf(host, sizeof host, "%s-%d-%d", what, n, (int)getpid());
    connect_named(host);
}

/* Role `without` is taken from the first half of the users; an image is filled up to so many words. */
size_t make_image(int limits, unsigned without, unsigned users, size_t words)
{
    static uint32_t w[NUTRAMEZA_MAX_WORDS];
    size_t n = 0;
    w[n++] = nutrameza_head_word(users, ROLES, PERMISSIONS);
    for (uint32_t u = 0; u < users; u++)
        for (uint32_t r = 0; r < ROLES; r++)
            if (r != without || u >= users / 2)
                w[n++] = nutrameza_assignment_word(u, r);
    for (uint32_t r = 0; r < ROLES; r++) {
        w[n++] = nutrameza_grant_word(r, r);
        w[n++] = nutrameza_grant_word(r, 5);
    }
    w[n++] = nutrameza_exclusion_word(NUTRAMEZA_MS_DMER, 2, 2);
    w[n++] = nutrameza_member_word(DOCTOR);
    w[n++] = nutrameza_member_word(MANAGER);
    if (limits)
        w[n++] = nutrameza_limit_word(HEAD, 3);
    while (n + 1 < words)
        w[n++] = nutrameza_grant_word(0, 0);
    w[n] = nutrameza_end_word(w, n);
    nutrameza_write_words(image, w, n + 1);
    return 4 * (n + 1);
}

void make_ward(const char *ward, int limits)
{
    size_t len = make_image(limits, NOBODY, STAFF, 0);
    uint64_t returned = nutrameza_store_create(store, ward, image, len, NULL, 0);
    if (returned != 0 && returned != NUTRAMEZA_STORE_WARD)
        die("create", returned);
}

uint64_t issue(const char *ward, const record *r, nutrameza_store_reply *reply)
{
    uint8_t lower[SET] = {0}, upper[SET] = {EVERY};
    lower[0] = (uint8_t)r->lower;
    if (r->call == OPEN)
        return nutrameza_store_open(store, ward, r->user, r->token, reply);
    if (r->call == CLOSE)
        return nutrameza_store_close(store, ward, r->user, r->window, r->token, reply);
    if (r->call == ADOPT)
        return nutrameza_store_adopt(store, ward, r->user, r->window, r->token, reply);
    if (r->call == SHORT_ASK)
        return nutrameza_store_short_ask(store, ward, r->user, r->window, lower, upper, r->token, reply);
    return nutrameza_store_ask(store, ward, r->user, r->window, lower, upper, 1, 2, r->token, reply);
}

/* Makes a request until it is answered: a failure is repeated with its token. */
uint64_t insist(const char *ward, const record *r, nutrameza_store_reply *reply)
{
    for (int tries = 0;; tries++) {
        uint64_t returned = issue(ward, r, reply);
        unsigned number = nutrameza_number_of(returned);
        if (number != NUTRAMEZA_STORE_BUSY && number != NUTRAMEZA_STORE_FAILED && number != NUTRAMEZA_STORE_UNKNOWN)
            return returned;
        if (tries == 600)
            die("insist", returned);
        nap(0.02);
    }
}

uint64_t open_window(const char *ward, uint64_t user)
{
    nutrameza_store_reply reply;
    uint64_t returned = nutrameza_store_open(store, ward, user, NULL, &reply);
    if (nutrameza_number_of(returned) != KIT_DONE)
        die("open", returned);
    return reply.window;
}

uint64_t short_ask(const char *ward, uint64_t user, uint64_t window, uint64_t lower, nutrameza_store_reply *reply)
{
    record r = {{0}, SHORT_ASK, user, window, lower, 0, {0}};
    new_token(r.token);
    return issue(ward, &r, reply);
}

typedef struct {
    const uint8_t *token;
    long count;
} counting;

static void count_entry(void *context, const nutrameza_store_entry *e)
{
    counting *c = context;
    c->count += c->token == NULL || (e->token != NULL && memcmp(e->token, c->token, TOKEN_BYTES) == 0);
}

long entries_of_token(const char *ward, const uint8_t *token)
{
    counting c = {token, 0};
    uint64_t returned = nutrameza_store_journal(store, ward, count_entry, &c);
    if (returned)
        die("journal", returned);
    return c.count;
}

/* How many of the user's entries around this one have the request's token: no other can, by the key. */
long entries_near(const char *ward, const record *r, uint64_t order)
{
    counting c = {r->token, 0};
    uint64_t from = order > 20 ? order - 20 : 0;
    uint64_t returned = nutrameza_store_journal_from(store, ward, r->user, from, 60, count_entry, &c);
    if (nutrameza_number_of(returned) != 0)
        die("journal", returned);
    return c.count;
}

long entries(const char *ward) { return entries_of_token(ward, NULL); }

static void take_window(void *context, const nutrameza_store_session *s)
{
    record **to = context;
    (*to)->user = s->user;
    (*to)++->window = s->window;
}

/* Closes every window of a ward: a test that finds windows of the one before proves nothing. */
void clear(const char *ward)
{
    record *all = calloc(USERS * NUTRAMEZA_SESSIONS + 1, sizeof *all), *end = all;
    uint64_t returned = nutrameza_store_sessions(store, ward, take_window, &end);
    for (record *r = all; r < end && returned == 0; r++)
        returned = nutrameza_store_close(store, ward, r->user, r->window, NULL, NULL);
    if (returned)
        die("clear", returned);
    free(all);
}

/* The ward replays, without a difference and without an incident. */
void settled(const char *ward)
{
    nutrameza_store_report report;
    IS(nutrameza_store_verify(store, ward, &report), 0);
    IS(report.incidents, 0);
    if (report.differences)
        printf("%s: %s\n", ward, report.words);
}

/* A statement behind the store's back. */
void sql(const char *format, ...)
{
    char text[2000];
    va_list more;
    va_start(more, format);
    vsnprintf(text, sizeof text, format, more);
    va_end(more);
    if (strncmp(name, "sqlite:", 7) == 0) {
        sqlite3 *db;
        sqlite3_open(name + 7, &db);
        sqlite3_busy_timeout(db, 5000);
        int code = sqlite3_exec(db, text, NULL, NULL, NULL);
        if (code != SQLITE_OK)
            printf("%s: %s\n", text, sqlite3_errmsg(db)), wrong++;
        sqlite3_close(db);
        return;
    }
    PGconn *db = PQconnectdb(name);
    PGresult *result = PQexec(db, text);
    if (PQresultStatus(result) != PGRES_COMMAND_OK && PQresultStatus(result) != PGRES_TUPLES_OK)
        printf("%s: %s\n", text, PQerrorMessage(db)), wrong++;
    PQclear(result);
    PQfinish(db);
}

volatile long *shared(void)
{
    return mmap(NULL, 65536, PROT_READ | PROT_WRITE, MAP_SHARED | MAP_ANONYMOUS, -1, 0);
}

int all_well(int count)
{
    int bad = 0, status;
    while (count-- > 0) {
        wait(&status);
        bad += status != 0;
    }
    return bad;
}
