/* Many processes on one ward: stress with and without kills, races, and every answer beside the journal. */
#define _DEFAULT_SOURCE
#include <fcntl.h>
#include <signal.h>

#include "common.h"

enum { REQUESTS, TROUBLE, RETRIED, KILLED }; /* of the shared counts */
static volatile long *counts;

static int to_be_repeated(uint64_t returned)
{
    unsigned number = nutrameza_number_of(returned);
    return number == NUTRAMEZA_STORE_BUSY || number == NUTRAMEZA_STORE_FAILED || number == NUTRAMEZA_STORE_UNKNOWN;
}

/* A request until it is answered; every failure is counted. */
static uint64_t counted(const char *ward, const record *r, nutrameza_store_reply *reply)
{
    uint64_t returned;
    while (to_be_repeated(returned = issue(ward, r, reply))) {
        __sync_fetch_and_add(counts + TROUBLE, 1);
        nap(0.02);
    }
    return returned;
}

typedef struct {
    uint64_t user[24], window[24];
    unsigned have;
} holding;

static record random_request(const holding *h, unsigned *which)
{
    record r = {{0}, 0, random64() % STAFF, 0, UINT64_C(1) << random64() % 5, 0, {0}};
    uint64_t dice = random64() % 100;
    *which = h->have ? (unsigned)(random64() % h->have) : 0;
    new_token(r.token);
    r.call = h->have == 0 || (dice < 12 && h->have < 24) ? OPEN
             : dice < 20 ? CLOSE : dice < 25 ? ADOPT : dice < 60 ? SHORT_ASK : ASK;
    if (r.call != OPEN) {
        r.user = h->user[*which];
        r.window = h->window[*which];
    }
    return r;
}

static void keep_windows(holding *h, const record *r, unsigned which, unsigned number, uint64_t window)
{
    if (number == KIT_DONE && r->call == OPEN) {
        h->user[h->have] = r->user;
        h->window[h->have++] = window;
    } else if (number == KIT_DONE && r->call == ADOPT) {
        h->window[which] = window;
    } else if (r->call != OPEN && ((number == KIT_DONE && r->call == CLOSE) || number == NUTRAMEZA_STORE_GONE ||
                                   number == KIT_CLOSED || number == NUTRAMEZA_STORE_OVERTAKEN)) {
        h->have--;
        h->user[which] = h->user[h->have];
        h->window[which] = h->window[h->have];
    }
}

/* Random calls by one process; an answer is logged as soon as it is there. */
static void worker(const char *ward, int n, long calls, const char *log, pid_t dead)
{
    char path[300], host[60];
    holding h = {{0}, {0}, 0};
    connect_as("worker", n);
    snprintf(path, sizeof path, "%s.%d", log, n);
    snprintf(host, sizeof host, "worker-%d-%d", n, (int)dead);
    while (dead != 0 && nutrameza_number_of(nutrameza_store_release(store, ward, host)) != 0)
        nap(0.05);
    int file = open(path, O_WRONLY | O_CREAT | O_APPEND, 0644);
    for (long k = 0; k < calls; k++) {
        unsigned which;
        nutrameza_store_reply reply;
        record r = random_request(&h, &which);
        r.returned = counted(ward, &r, &reply);
        unsigned number = nutrameza_number_of(r.returned);
        int gone = number == NUTRAMEZA_STORE_OVERTAKEN || number == NUTRAMEZA_STORE_GONE;
        if (number == KIT_LINE || (number >= 128 && !gone)) {
            printf("worker: %u %s\n", number, nutrameza_store_error(store));
            exit(1);
        }
        keep_windows(&h, &r, which, number, reply.window);
        memcpy(r.answer, reply.answer, ANSWER);
        if (number >= 128)
            continue;
        if (write(file, &r, sizeof r) != sizeof r)
            exit(1);
        __sync_fetch_and_add(counts + REQUESTS, 1);
    }
    __sync_fetch_and_add(counts + RETRIED, (long)store->retried);
    hang_up();
    exit(0);
}

static pid_t start_worker(const char *ward, int n, long calls, const char *log, pid_t dead)
{
    fflush(stdout);
    pid_t pid = fork();
    if (pid == 0)
        worker(ward, n, calls, log, dead);
    return pid;
}

/* stress WARD PROCESSES CALLS LOG [trouble]: as many entries as requests, and no failure but where trouble is made */
int test_stress(char **words)
{
    int n = atoi(words[1]), troubled = words[4] != NULL;
    counts = shared();
    connect_as("stress", 0);
    clear(words[0]);
    long before = entries(words[0]);
    hang_up();
    for (int k = 0; k < n; k++)
        start_worker(words[0], k, atol(words[2]), words[3], 0);
    IS((uint64_t)all_well(n), 0);
    connect_as("stress", 1);
    printf("%ld requests, %ld failures, %ld conflicts\n", counts[REQUESTS], counts[TROUBLE], counts[RETRIED]);
    IS((uint64_t)(entries(words[0]) - before), counts[REQUESTS]);
    if (!troubled) {
        IS((uint64_t)counts[TROUBLE], 0);
        IS((uint64_t)counts[RETRIED], 0);
    }
    settled(words[0]);
    return wrong;
}

/* kill WARD PROCESSES SECONDS LOG: one after the other is killed, and the next releases its windows */
int test_kill(char **words)
{
    pid_t workers[16];
    int n = atoi(words[1]), kills = 0, status;
    double end = now() + atof(words[2]);
    counts = shared();
    for (int k = 0; k < n; k++)
        workers[k] = start_worker(words[0], k, 1000000000, words[3], 0);
    while (now() < end) {
        nap(0.005 + (double)(random64() % 200) * 1e-3);
        int k = (int)(random64() % (uint64_t)n);
        kill(workers[k], SIGKILL);
        waitpid(workers[k], &status, 0);
        MUST(WIFSIGNALED(status));
        workers[k] = start_worker(words[0], k, 1000000000, words[3], workers[k]);
        kills++;
    }
    for (int k = 0; k < n; k++) {
        kill(workers[k], SIGKILL);
        waitpid(workers[k], &status, 0);
        MUST(WIFSIGNALED(status));
    }
    printf("%d kills, %ld answers\n", kills, counts[REQUESTS]);
    MUST(kills > 3 && counts[REQUESTS] > 20);
    connect_as("kill", 0);
    clear(words[0]);
    settled(words[0]);
    return wrong;
}

typedef struct {
    record *all;
    size_t count, room;
} known;

static void take_entry(void *context, const nutrameza_store_entry *e)
{
    known *k = context;
    if (e->token == NULL)
        return;
    if (k->count == k->room)
        k->all = realloc(k->all, (k->room = 2 * k->room + 1000) * sizeof *k->all);
    record *r = &k->all[k->count++];
    memset(r, 0, sizeof *r);
    memcpy(r->token, e->token, TOKEN_BYTES);
    r->user = e->user;
    r->window = e->window;
    r->returned = e->returned;
    r->lower = e->args_len == 0 ? 0 : e->args[0];
    if (e->answer != NULL)
        memcpy(r->answer, e->answer, ANSWER);
}

static int by_token(const void *a, const void *b)
{
    const record *one = a, *two = b;
    int order = memcmp(one->token, two->token, TOKEN_BYTES);
    return order != 0 ? order : one->user < two->user ? -1 : one->user > two->user;
}

/* audit WARD LOG: every answer that was given stands in the journal as it was given */
int test_audit(char **words)
{
    known k = {NULL, 0, 0};
    long given = 0, lost = 0;
    connect_as("audit", 0);
    IS(nutrameza_store_journal(store, words[0], take_entry, &k), 0);
    qsort(k.all, k.count, sizeof *k.all, by_token);
    for (int n = 0; n < 16; n++) {
        char path[300];
        record r;
        snprintf(path, sizeof path, "%s.%d", words[1], n);
        FILE *file = fopen(path, "rb");
        while (file != NULL && fread(&r, sizeof r, 1, file) == 1) {
            const record *e = bsearch(&r, k.all, k.count, sizeof r, by_token);
            given++;
            int asked = r.call == ASK || r.call == SHORT_ASK;
            lost += e == NULL || e->window != r.window || e->returned != r.returned ||
                    (asked && e->lower != r.lower) || memcmp(e->answer, r.answer, ANSWER) != 0;
        }
        if (file != NULL)
            fclose(file);
    }
    printf("%ld answers given, %ld not in the journal as given, of %lu\n", given, lost, (unsigned long)k.count);
    MUST(given > 0);
    IS((uint64_t)lost, 0);
    free(k.all);
    return wrong;
}

/* All meet before each round; a test whose other side has ended does not wait for ever. */
static void meet(volatile long *at, long round, long count)
{
    __sync_fetch_and_add(at, 1);
    for (double end = now() + 30; *at < round * count;) {
        if (now() > end)
            exit(1);
        usleep(20);
    }
}

static void race_side(volatile long *m, int who, int count)
{
    connect_as("race", who);
    uint64_t window = open_window("free", 3);
    for (int k = 1; k <= count; k++) {
        nutrameza_store_reply reply;
        record r = {{0}, SHORT_ASK, 3, window, who == 0 ? 1u << DOCTOR : 1u << MANAGER, 0, {0}};
        new_token(r.token);
        meet(m, 3 * k - 2, 2);
        uint64_t returned = issue("free", &r, &reply);
        if (nutrameza_number_of(returned) >= 128)
            exit(1);
        m[1 + who] = returned == 0;
        m[4 + who] += returned == 0;
        meet(m, 3 * k - 1, 2);
        if (who == 0)
            m[3] += m[1] && m[2];
        meet(m, 3 * k, 2);
        if (short_ask("free", 3, window, 0, &reply) != 0)
            exit(1);
    }
    nutrameza_store_close(store, "free", 3, window, NULL, NULL);
    exit(store->retried != 0);
}

/* race ROUNDS: two windows of one doctor ask at once for Doctor and for Data_Manager: never both, always one */
int test_race(char **words)
{
    int count = atoi(words[0]);
    volatile long *m = shared(); /* meet, live 0, live 1, both, granted 0, granted 1 */
    connect_as("race", 9);
    clear("free");
    for (int who = 0; who < 2; who++)
        if (fork() == 0)
            race_side(m, who, count);
    IS((uint64_t)all_well(2), 0);
    printf("%d rounds: Doctor granted %ld times, Data_Manager %ld, both %ld\n", count, m[4], m[5], m[3]);
    IS((uint64_t)m[3], 0);
    IS((uint64_t)(m[4] + m[5]), count);
    MUST(m[4] > 0 && m[5] > 0);
    settled("free");
    return wrong;
}

static void limit_side(volatile long *m, int who, int count)
{
    connect_as("limit", who);
    uint64_t window = open_window("limited", (uint64_t)who);
    for (int k = 0; k < count; k++) {
        nutrameza_store_reply reply;
        uint64_t returned = short_ask("limited", (uint64_t)who, window, 1u << HEAD, &reply);
        if (nutrameza_number_of(returned) >= 128)
            exit(1);
        if (returned != 0) {
            __sync_fetch_and_add(m + 3, 1);
            continue;
        }
        long live = __sync_add_and_fetch(m, 1);
        if (live > m[1])
            m[1] = live;
        m[2]++;
        nap((double)(random64() % 20) * 1e-3);
        __sync_fetch_and_sub(m, 1);
        if (short_ask("limited", (uint64_t)who, window, 0, &reply) != 0)
            exit(1);
    }
    nutrameza_store_close(store, "limited", (uint64_t)who, window, NULL, NULL);
    exit(store->retried != 0);
}

/* limit PROCESSES ASKS: for a role that two windows may hold; two are reached, and never three */
int test_limit(char **words)
{
    int n = atoi(words[0]);
    volatile long *m = shared(); /* live, most, granted, refused */
    connect_as("limit", 99);
    clear("limited");
    for (int who = 0; who < n; who++)
        if (fork() == 0)
            limit_side(m, who, atoi(words[1]));
    IS((uint64_t)all_well(n), 0);
    printf("granted %ld, refused %ld, at most %ld at a time\n", m[2], m[3], m[1]);
    IS((uint64_t)m[1], 2);
    settled("limited");
    return wrong;
}

static void twice_side(volatile long *m, const char *ward, int who, int count)
{
    connect_as("twice", who);
    for (int k = 1; k <= count; k++) {
        nutrameza_store_reply reply;
        record r = {{0}, OPEN, 5, 0, 0, 0, {0}};
        nms_put_number(r.token, (uint64_t)k);
        nms_put_number(r.token + 8, (uint64_t)getppid());
        meet(m, 3 * k - 2, 2);
        if (nutrameza_number_of(issue(ward, &r, &reply)) != 0)
            exit(1);
        m[2 + who] = (long)reply.window;
        __sync_fetch_and_add(m + 1, reply.again);
        meet(m, 3 * k - 1, 2);
        if (who == 0) {
            m[4] += m[2] != m[3];
            nutrameza_store_close(store, ward, 5, reply.window, NULL, NULL);
        }
        meet(m, 3 * k, 2);
    }
    exit(0);
}

/* twice WARD ROUNDS: one token from two processes at once: one does it, the other is told the same */
int test_twice(char **words)
{
    volatile long *m = shared(); /* meet, told again, window 0, window 1, unlike */
    connect_as("twice", 9);
    clear(words[0]);
    for (int who = 0; who < 2; who++)
        if (fork() == 0)
            twice_side(m, words[0], who, atoi(words[1]));
    IS((uint64_t)all_well(2), 0);
    IS((uint64_t)m[1], atoi(words[1]));
    IS((uint64_t)m[4], 0);
    settled(words[0]);
    return wrong;
}

/* flip WARD CHANGES LOG: policies with and without limits and with a role withdrawn, while others work */
int test_flip(char **words)
{
    counts = shared();
    connect_as("flip", 0);
    clear(words[0]);
    long before = entries(words[0]);
    for (int k = 0; k < 4; k++)
        start_worker(words[0], k, 120, words[2], 0);
    for (int k = 0; k < atoi(words[1]); k++) {
        uint64_t returned =
            nutrameza_store_policy(store, words[0], image, make_image(k % 2 == 0, NOBODY, STAFF, 0), 0, NULL);
        MUST(nutrameza_number_of(returned) == 0);
        nap(0.02);
    }
    IS((uint64_t)all_well(4), 0);
    IS((uint64_t)counts[TROUBLE], 0);
    IS((uint64_t)(entries(words[0]) - before), counts[REQUESTS]);
    size_t len = make_image(strcmp(words[0], "limited") == 0, NOBODY, STAFF, 0);
    MUST(nutrameza_number_of(nutrameza_store_policy(store, words[0], image, len, 0, NULL)) == 0);
    settled(words[0]);
    return wrong;
}

static void rival(volatile long *m, int who, int count)
{
    char host[40];
    snprintf(host, sizeof host, "rival-%d", who);
    connect_named(host);
    for (int k = 1; k <= count; k++) {
        meet(m, 2 * k - 1, 2);
        if (who == 0) {
            nutrameza_store_reply reply;
            if (nutrameza_number_of(nutrameza_store_open(store, "free", 7, NULL, &reply)) != 0)
                exit(1);
            uint64_t returned = short_ask("free", 7, reply.window, 1u << NURSE, &reply);
            m[1] += returned == 0;
            m[2] += returned == KIT_CLOSED || returned == NUTRAMEZA_STORE_GONE;
        } else if (nutrameza_number_of(nutrameza_store_release(store, "free", "rival-0")) != 0) {
            exit(1);
        }
        meet(m, 2 * k, 2);
        if (who == 1 && nutrameza_number_of(nutrameza_store_release(store, "free", "rival-0")) != 0)
            exit(1);
    }
    exit(0);
}

/* rivals ROUNDS: a host opens and asks while another releases its windows: each ask is answered or told gone */
int test_rivals(char **words)
{
    volatile long *m = shared(); /* meet, answered, gone */
    connect_as("rivals", 9);
    clear("free");
    for (int who = 0; who < 2; who++)
        if (fork() == 0)
            rival(m, who, atoi(words[0]));
    IS((uint64_t)all_well(2), 0);
    printf("%ld answered, %ld gone\n", m[1], m[2]);
    IS((uint64_t)(m[1] + m[2]), atoi(words[0]));
    clear("free");
    settled("free");
    return wrong;
}
