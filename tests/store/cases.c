/* What a host meets, case by case: wrong use, repeats, windows, policies, imports, lists and the cut journal. */
#define _DEFAULT_SOURCE
#include "common.h"

static char ward[40];

/* A ward of its own for a case, with so many users. */
static void fresh(const char *what, int limits, unsigned users)
{
    connect_as(what, 0);
    snprintf(ward, sizeof ward, "%s-%lx", what, (unsigned long)random64());
    size_t len = make_image(limits, NOBODY, users, 0);
    IS(nutrameza_store_create(store, ward, image, len, NULL, 0), 0);
}

static int zero(const uint8_t *bytes, size_t count)
{
    while (count > 0 && bytes[count - 1] == 0)
        count--;
    return count == 0;
}

static void refuses(const char *to, const char *host, uint64_t number)
{
    nutrameza_store *s = NULL;
    IS(nutrameza_store_connect(to, host, &s), number);
    MUST(s != NULL && *nutrameza_store_error(s) != 0);
    IS(nutrameza_store_open(s, "w", 0, NULL, NULL), NUTRAMEZA_STORE_USAGE);
    nutrameza_store_disconnect(s);
}

static void wrong_names(void)
{
    char host[65];
    memset(host, 'h', 64);
    host[64] = 0;
    refuses("mysql:x", "h", NUTRAMEZA_STORE_USAGE);
    refuses("sqlite:", "h", NUTRAMEZA_STORE_USAGE);
    refuses(name, "", NUTRAMEZA_STORE_USAGE);
    refuses(name, host, NUTRAMEZA_STORE_USAGE);
    refuses("sqlite:/no/such/folder/x", "h", NUTRAMEZA_STORE_FAILED);
    refuses("postgresql://store@/x?host=/no/such/folder", "h", NUTRAMEZA_STORE_FAILED);
    IS(nutrameza_store_connect(name, "h", NULL), NUTRAMEZA_STORE_USAGE);
    IS(nutrameza_store_open(NULL, "w", 0, NULL, NULL), NUTRAMEZA_STORE_USAGE);
    IS(nutrameza_store_make(NULL), NUTRAMEZA_STORE_USAGE);
    for (unsigned number = 0; number < 256; number++)
        MUST((strcmp(nutrameza_store_word_of(number), "unknown") != 0) ==
             (number <= 24 || (number >= 128 && number <= 141)));
}

static void wrong_images(void)
{
    uint8_t ledger[2 * LINE];
    size_t len = make_image(0, NOBODY, 2, 0);
    snprintf(ward, sizeof ward, "usage-%lx", (unsigned long)random64());
    IS(nutrameza_store_open(store, ward, 0, NULL, NULL), NUTRAMEZA_STORE_WARD);
    IS(nutrameza_store_create(store, "", image, len, NULL, 0), NUTRAMEZA_STORE_USAGE);
    IS(nutrameza_store_create(store, NULL, image, len, NULL, 0), NUTRAMEZA_STORE_USAGE);
    IS(nutrameza_store_create(store, ward, image, len - 1, NULL, 0), 1);
    IS(nutrameza_number_of(nutrameza_store_create(store, ward, image, len - 4, NULL, 0)), 3);
    IS(nutrameza_store_create(store, ward, image, len, ledger, 100), KIT_LEDGER);
    memset(ledger, 255, sizeof ledger);
    IS(nutrameza_store_create(store, ward, image, len, ledger, sizeof ledger), KIT_LINE);
    IS(nutrameza_store_create(store, ward, image, len, NULL, 0), 0);
    IS(nutrameza_store_create(store, ward, image, len, NULL, 0), NUTRAMEZA_STORE_WARD);
    IS(nutrameza_store_open(store, "a name of more than sixty-three bytes, which no ward can have at all", 0, NULL,
                            NULL), NUTRAMEZA_STORE_USAGE);
}

/* usage: wrong use, and a host's day */
int test_usage(char **words)
{
    uint8_t low[SET] = {1}, up[SET] = {EVERY}, roles[16];
    nutrameza_store_reply r, r2;
    (void)words;
    wrong_names();
    connect_as("usage", 0);
    wrong_images();
    IS(nutrameza_store_open(store, ward, 2, NULL, &r), KIT_PERSON);
    IS(nutrameza_store_open(store, ward, UINT64_MAX, NULL, &r), KIT_PERSON);
    IS(nutrameza_store_show(store, ward, UINT64_MAX, 8, &r), KIT_PERSON);
    IS(nutrameza_store_open(store, ward, 0, NULL, &r), 0);
    IS(r.window, 8);
    IS(nutrameza_store_short_ask(store, ward, 0, r.window, NULL, up, NULL, &r2), NUTRAMEZA_STORE_USAGE);
    IS(nutrameza_store_short_ask(store, ward, 0, r.window, low, up, NULL, &r2), 0);
    IS(r2.answer[0], 1);
    IS(nutrameza_store_ask(store, ward, 0, r.window, low, up, 3, 0, NULL, &r2), 18);
    IS(nutrameza_store_ask(store, ward, 0, r.window, low, up, 0, UINT64_C(1) << 40, NULL, &r2), 18);
    IS(nutrameza_store_short_ask(store, ward, 0, r.window + 1, low, up, NULL, &r2), KIT_CLOSED);
    IS(nutrameza_store_show(store, ward, 0, r.window, &r2), 0);
    IS(r2.answer[0], 1);
    IS(nutrameza_store_explain(store, ward, 0, r.window, 5, &r2), 0);
    IS(nutrameza_store_explain(store, ward, 0, r.window, 4, &r2), 20);
    IS(nutrameza_store_explain(store, ward, 0, r.window, UINT64_MAX, &r2), 16);
    low[0] = 16;
    IS(nutrameza_number_of(nutrameza_store_obstacle(store, ward, 0, r.window, low, up, roles, &r2)), 0);
    IS(nutrameza_store_close(store, ward, 0, r.window, NULL, &r2), 0);
    IS(nutrameza_store_show(store, ward, 0, r.window, &r2), KIT_CLOSED);
    settled(ward);
    hang_up();
    return wrong;
}

static uint64_t ask_with(nutrameza_store *s, uint64_t user, uint64_t window, uint8_t lower, const uint8_t *token,
                         nutrameza_store_reply *reply)
{
    uint8_t low[SET] = {lower}, up[SET] = {EVERY};
    return nutrameza_store_short_ask(s, ward, user, window, low, up, token, reply);
}

/* A repeat after done, refused, another ask, a close; with other arguments; by another user. */
static void repeats_of(int limits)
{
    uint8_t t[6][16];
    nutrameza_store_reply r, r2;
    fresh("repeats", limits, 3);
    for (int k = 0; k < 6; k++)
        new_token(t[k]);
    IS(nutrameza_store_open(store, ward, 0, t[0], &r), 0);
    IS(nutrameza_store_open(store, ward, 0, t[0], &r2), 0);
    MUST(r2.again && r2.window == r.window && !r.again);
    IS(nutrameza_store_close(store, ward, 0, r.window, t[0], &r2), NUTRAMEZA_STORE_TOKEN);
    IS(nutrameza_store_open(store, ward, 1, t[0], &r2), 0); /* another user's request */
    MUST(!r2.again);
    IS(ask_with(store, 0, r.window, 1, t[1], &r2), 0);
    IS(ask_with(store, 0, r.window, 1, t[1], &r2), 0);
    MUST(r2.again && r2.answer[0] == 1 && memcmp(r2.token, t[1], 16) == 0);
    IS(ask_with(store, 0, r.window, 2, t[1], &r2), NUTRAMEZA_STORE_TOKEN);
    IS(ask_with(store, 0, r.window, 3, t[2], &r2), 20); /* Doctor and Data_Manager */
    IS(ask_with(store, 0, r.window, 3, t[2], &r2), 20);
    MUST(r2.again && zero(r2.answer, ANSWER));
    IS(ask_with(store, 0, r.window, 1, t[1], &r2), 0); /* a refusal has not replaced it */
    IS(ask_with(store, 0, r.window, 8, t[3], &r2), 0);
    IS(ask_with(store, 0, r.window, 1, t[1], &r2), NUTRAMEZA_STORE_OVERTAKEN);
    MUST(zero(r2.answer, ANSWER) && r2.again);
    IS(nutrameza_store_open(store, ward, 0, t[0], &r2), 0); /* the window is still there */
    IS(nutrameza_store_close(store, ward, 0, r.window, t[4], &r2), 0);
    IS(nutrameza_store_close(store, ward, 0, r.window, t[4], &r2), 0);
    MUST(r2.again);
    IS(ask_with(store, 0, r.window, 8, t[3], &r2), NUTRAMEZA_STORE_OVERTAKEN);
    IS(nutrameza_store_open(store, ward, 0, t[0], &r2), NUTRAMEZA_STORE_OVERTAKEN);
    IS(r2.window, 0);
    IS(entries_of_token(ward, t[1]), 1);
    settled(ward);
    IS(store->retried, 0);
    hang_up();
}

/* A repeat after a release, and after a policy change; the token that the library makes. */
static void repeats_over_changes(void)
{
    uint8_t t[16];
    nutrameza_store_reply r, r2, r3;
    fresh("changes", 0, 3);
    new_token(t);
    IS(nutrameza_store_open(store, ward, 0, NULL, &r), 0);
    IS(nutrameza_store_open(store, ward, 0, r.token, &r2), 0);
    MUST(r2.again && r2.window == r.window);
    IS(ask_with(store, 0, r.window, 1, t, &r2), 0);
    IS(nutrameza_store_policy(store, ward, image, make_image(1, NOBODY, 3, 0), 0, NULL), 512);
    IS(ask_with(store, 0, r.window, 1, t, &r3), 0);
    MUST(r3.again && r3.version == 1 && memcmp(r3.answer, r2.answer, ANSWER) == 0);
    nutrameza_store *other = another("somebody-else");
    IS(nutrameza_store_close(other, ward, 0, r.window, NULL, NULL), 0);
    IS(ask_with(store, 0, r.window, 1, t, &r3), NUTRAMEZA_STORE_OVERTAKEN);
    nutrameza_store_disconnect(other);
    settled(ward);
    hang_up();
}

/* repeats: what a token tells, on wards with and without limits */
int test_repeats(char **words)
{
    (void)words;
    repeats_of(0);
    repeats_of(1);
    repeats_over_changes();
    return wrong;
}

static uint64_t told[3];

static void take_told(void *context, const nutrameza_store_session *s)
{
    (void)context;
    told[0]++;
    told[1] = s->window;
    told[2] = s->was;
}

/* Released and given to another host: the session is the same, the window is not. */
static void released(nutrameza_store *other, const char *host)
{
    uint8_t t[16];
    nutrameza_store_reply r, r2;
    new_token(t);
    uint64_t window = open_window(ward, 0);
    IS(ask_with(store, 0, window, 1, t, &r), 0);
    memset(told, 0, sizeof told);
    IS(nutrameza_store_sessions(store, ward, take_told, NULL), 0);
    MUST(told[0] == 1 && told[1] == window);
    IS(nutrameza_store_release(other, ward, host), 256);
    IS(ask_with(store, 0, window, 1, t, &r), NUTRAMEZA_STORE_OVERTAKEN);
    IS(nutrameza_store_open(other, ward, 0, NULL, &r2), 0);
    IS(r2.window % 8, window % 8);
    IS(ask_with(store, 0, window, 1, NULL, &r), NUTRAMEZA_STORE_GONE);
    IS(ask_with(store, 0, window, 1, t, &r), NUTRAMEZA_STORE_OVERTAKEN);
    IS(nutrameza_store_close(store, ward, 0, window, NULL, &r), NUTRAMEZA_STORE_GONE);
    IS(nutrameza_store_show(store, ward, 0, window, &r), NUTRAMEZA_STORE_GONE);
    IS(nutrameza_store_explain(store, ward, 0, window, 1, &r), NUTRAMEZA_STORE_GONE);
    IS(nutrameza_store_adopt(store, ward, 0, window, NULL, &r), NUTRAMEZA_STORE_GONE);
    IS(nutrameza_store_release(other, ward, host), 0);
    IS(open_window(ward, 0) % 8, 1); /* the host lives and opens anew */
    clear(ward);
}

/* A restarted host takes the windows over: what was active is told, and the old numbers are gone. */
static void adopted(nutrameza_store *other, const char *host)
{
    nutrameza_store_reply r;
    uint64_t window = open_window(ward, 1);
    IS(ask_with(store, 1, window, 8, NULL, &r), 0);
    memset(told, 0, sizeof told);
    IS(nutrameza_store_adopt_all(other, ward, host, take_told, NULL), 256);
    MUST(told[0] == 1 && told[2] == window && told[1] != window && told[1] % 8 == window % 8);
    IS(nutrameza_store_show(other, ward, 1, told[1], &r), 0);
    IS(r.answer[0], 8);
    IS(ask_with(store, 1, window, 8, NULL, &r), NUTRAMEZA_STORE_GONE);
    IS(ask_with(other, 1, told[1], 1, NULL, &r), 0);
    IS(nutrameza_store_release(store, ward, host), 0);
    IS(nutrameza_store_adopt(store, ward, 1, told[1], NULL, &r), 0);
    MUST(r.answer[0] == 1 && r.window != told[1]);
    clear(ward);
    IS(nutrameza_store_adopt(store, ward, 1, r.window, NULL, &r), KIT_CLOSED);
}

/* windows: released, adopted, gone */
int test_windows(char **words)
{
    char host[60];
    (void)words;
    snprintf(host, sizeof host, "windows-0-%d", (int)getpid());
    for (int limits = 0; limits < 2; limits++) {
        fresh("windows", limits, 3);
        nutrameza_store *other = another("other");
        released(other, host);
        adopted(other, host);
        settled(ward);
        nutrameza_store_disconnect(other);
        hang_up();
    }
    return wrong;
}

static uint64_t change(int limits, unsigned without, unsigned users, int go_on, uint64_t *stopped)
{
    return nutrameza_store_policy(store, ward, image, make_image(limits, without, users, 0), go_on, stopped);
}

/* More users, fewer, limits added and taken away, refused images. */
static void numbers_of_users(void)
{
    uint64_t stopped = 7;
    nutrameza_store_reply r, r2;
    fresh("policy", 0, 2);
    nutrameza_store *other = another("other");
    IS(nutrameza_store_open(other, ward, 0, NULL, &r2), 0);
    IS(nutrameza_number_of(nutrameza_store_policy(store, ward, image, 8, 0, &stopped)), 3);
    IS(change(1, NOBODY, 3, 0, &stopped), 512);
    IS(stopped, 0);
    IS(nutrameza_store_open(other, ward, 2, NULL, &r), 0);
    IS(r.version, 2);
    IS(ask_with(other, 0, r2.window, 4, NULL, &r), 0);
    IS(r.version, 2);
    IS(change(0, NOBODY, 2, 2, &stopped), NUTRAMEZA_STORE_SHRINKS);
    IS(change(0, NOBODY, 64, 0, &stopped), 768);
    IS(ask_with(other, 0, r2.window, 1, NULL, &r), 0);
    IS(r.version, 3);
    IS(nutrameza_store_open(other, ward, 63, NULL, &r), 0);
    IS(change(1, NOBODY, 64, 0, &stopped), 1024);
    IS(ask_with(other, 63, r.window, 4, NULL, &r2), 0);
    settled(ward);
    nutrameza_store_disconnect(other);
    hang_up();
}

/* One handle for more wards than it keeps: each call is under its ward's own policy, a changed one too. */
static void many_wards(void)
{
    enum { WARDS = 11 };
    char names[WARDS][60];
    nutrameza_store_reply r;
    fresh("many", 0, 2);
    nutrameza_store *other = another("other");
    for (int k = 0; k < WARDS; k++) {
        snprintf(names[k], sizeof names[k], "%s-%d", ward, k);
        size_t len = make_image(k % 2, NOBODY, (unsigned)k + 1, 0);
        IS(nutrameza_store_create(store, names[k], image, len, NULL, 0), 0);
    }
    for (int round = 0; round < 3; round++)
        for (int k = 0; k < WARDS; k++) {
            uint64_t last = (uint64_t)k;
            IS(nutrameza_number_of(nutrameza_store_open(other, names[k], last, NULL, &r)), 0);
            IS(r.version, round + 1);
            IS(nutrameza_store_open(other, names[k], last + 1, NULL, NULL), KIT_PERSON);
            IS(nutrameza_store_show(other, names[k], last, r.window, &r), 0);
            size_t len = make_image((k + round) % 3 == 0, NOBODY, (unsigned)k + 1, 0);
            IS(nutrameza_number_of(nutrameza_store_policy(store, names[k], image, len, 0, NULL)), 0);
        }
    for (int k = 0; k < WARDS; k++)
        settled(names[k]);
    nutrameza_store_disconnect(other);
    hang_up();
}

/* A role is withdrawn from somebody who holds it: refused; or her windows are closed, and nobody else's. */
static void withdrawn(int limits)
{
    uint64_t stopped = 0, window, others;
    nutrameza_store_reply r;
    fresh("withdrawn", limits, 4);
    window = open_window(ward, 0);
    others = open_window(ward, 3);
    IS(ask_with(store, 0, window, 1, NULL, &r), 0);
    IS(change(limits, DOCTOR, 4, NUTRAMEZA_STORE_IF_NONE, &stopped), NUTRAMEZA_STORE_STOPS);
    IS(stopped, 1);
    IS(nutrameza_store_show(store, ward, 0, window, &r), 0);
    IS(change(limits, DOCTOR, 4, NUTRAMEZA_STORE_CLOSING, &stopped), 512);
    IS(stopped, 1);
    IS(nutrameza_store_show(store, ward, 0, window, &r), KIT_CLOSED);
    IS(ask_with(store, 3, others, 1, NULL, &r), 0); /* nobody else's window is closed */
    settled(ward);
    window = open_window(ward, 0);
    IS(ask_with(store, 0, window, 1, NULL, &r), 20);
    IS(change(limits, NOBODY, 4, 0, &stopped), 768);
    IS(ask_with(store, 0, window, 1, NULL, &r), 0);
    IS(nutrameza_store_close(store, ward, 0, window, NULL, &r), 0);
    IS(change(limits, DOCTOR, 4, NUTRAMEZA_STORE_IF_NONE, &stopped), 1024); /* the past stops nobody here */
    settled(ward);
    hang_up();
}

/* An image with an ms-hmer exclusion of Doctor and Nurse, which a past with both breaks for good. */
static size_t historic(int limits)
{
    static uint32_t w[NUTRAMEZA_MAX_WORDS];
    size_t n = 0;
    w[n++] = nutrameza_head_word(2, ROLES, PERMISSIONS);
    for (uint32_t u = 0; u < 2; u++)
        for (uint32_t r = 0; r < ROLES; r++)
            w[n++] = nutrameza_assignment_word(u, r);
    for (uint32_t r = 0; r < ROLES; r++)
        w[n++] = nutrameza_grant_word(r, r);
    w[n++] = nutrameza_exclusion_word(NUTRAMEZA_MS_HMER, 2, 2);
    w[n++] = nutrameza_member_word(DOCTOR);
    w[n++] = nutrameza_member_word(NURSE);
    if (limits)
        w[n++] = nutrameza_limit_word(HEAD, 3);
    w[n] = nutrameza_end_word(w, n);
    nutrameza_write_words(image, w, n + 1);
    return 4 * (n + 1);
}

/* Put in place even so: she is stopped, under limits with everybody who asks. */
static void stopped_for_good(int limits)
{
    uint64_t stopped = 0, window, others;
    nutrameza_store_reply r;
    fresh("past", limits, 2);
    window = open_window(ward, 0);
    others = open_window(ward, 1);
    IS(ask_with(store, 0, window, 1, NULL, &r), 0);
    IS(ask_with(store, 0, window, 8, NULL, &r), 0);
    size_t len = historic(limits);
    IS(nutrameza_store_policy(store, ward, image, len, NUTRAMEZA_STORE_CLOSING, &stopped), NUTRAMEZA_STORE_STOPS);
    IS(stopped, 1);
    IS(nutrameza_store_show(store, ward, 0, window, &r), 0); /* refused: nothing was closed */
    IS(nutrameza_store_policy(store, ward, image, len, NUTRAMEZA_STORE_REGARDLESS, &stopped), 512);
    IS(nutrameza_store_open(store, ward, 0, NULL, &r), KIT_LINE);
    IS(ask_with(store, 1, others, 1, NULL, &r), limits ? KIT_LINE + 256 : 0);
    settled(ward); /* the replay gives the same 11 */
    hang_up();
}

/* policy: changes between two calls of everybody */
int test_policy(char **words)
{
    (void)words;
    numbers_of_users();
    many_wards();
    for (int limits = 0; limits < 2; limits++) {
        withdrawn(limits);
        stopped_for_good(limits);
    }
    return wrong;
}

/* import: a ledger of a file with open windows, exported, imported again, narrowed and imported as 80 bytes a user */
int test_import(char **words)
{
    uint8_t ledger[2][USERS * LINE], narrow[USERS * NUTRAMEZA_OLD_LINE_BYTES], got[NUTRAMEZA_MAX_IMAGE_BYTES];
    size_t len[2], image_len, users = 3;
    nutrameza_store_reply r;
    (void)words;
    fresh("import", 0, (unsigned)users);
    uint64_t window = open_window(ward, 1);
    open_window(ward, 2);
    IS(ask_with(store, 1, window, 8, NULL, &r), 0);
    IS(nutrameza_store_export(store, ward, got, &image_len, ledger[0], &len[0]), 0);
    MUST(len[0] == users * LINE && image_len == make_image(0, NOBODY, 3, 0) && memcmp(got, image, image_len) == 0);
    strcat(ward, "-2");
    IS(nutrameza_store_create(store, ward, got, image_len, ledger[0], len[0]), 0);
    IS(nutrameza_store_show(store, ward, 1, 8, &r), 0);
    IS(r.answer[0], 8);
    IS(nutrameza_store_export(store, ward, got, &image_len, ledger[1], &len[1]), 0);
    MUST(memcmp(ledger[0], ledger[1], len[0]) == 0);
    IS(nutrameza_narrow(got, image_len, ledger[1], len[1], narrow, users * NUTRAMEZA_OLD_LINE_BYTES), 0);
    strcat(ward, "-3");
    IS(nutrameza_store_create(store, ward, got, image_len, narrow, users * NUTRAMEZA_OLD_LINE_BYTES), 0);
    IS(nutrameza_store_export(store, ward, got, &image_len, ledger[1], &len[1]), 0);
    MUST(memcmp(ledger[0], ledger[1], len[0]) == 0);
    IS(nutrameza_store_close(store, ward, 1, 8, NULL, &r), 0);
    IS(nutrameza_store_open(store, ward, 1, NULL, &r), 0);
    clear(ward);
    settled(ward);
    hang_up();
    return wrong;
}

static nutrameza_store_entry last;
static long seen;
static uint8_t args[BOUNDS + AIMS];

static void take_last(void *context, const nutrameza_store_entry *e)
{
    (void)context;
    seen++;
    last = *e;
    if (e->args_len == sizeof args)
        memcpy(args, e->args, sizeof args);
}

static void count_ward(void *context, const nutrameza_store_ward *w) { *(int *)context += strcmp(w->name, ward) == 0; }
static void count_image(void *context, const nutrameza_store_image *i) { *(size_t *)context += i->image_len; }

/* journal: the lists, from an entry on, aims whole, and a verify that is watched */
int test_journal(char **words)
{
    uint8_t low[SET] = {1}, up[SET] = {EVERY};
    int wards = 0;
    size_t bytes = 0, len = make_image(0, NOBODY, 3, 0);
    nutrameza_store_reply r;
    (void)words;
    fresh("journal", 0, 3);
    uint64_t window = open_window(ward, 1);
    IS(nutrameza_store_ask(store, ward, 1, window, low, up, UINT64_C(0x1234567890), 7, NULL, &r), 18);
    open_window(ward, 2);
    IS(nutrameza_store_journal(store, ward, take_last, NULL), 0);
    MUST(seen == 3 && nms_number(args + BOUNDS) == UINT64_C(0x1234567890) && nms_number(args + BOUNDS + 8) == 7);
    seen = 0;
    IS(nutrameza_store_journal_from(store, ward, 1, 2, 1, take_last, NULL), 256);
    MUST(seen == 1 && last.user == 1 && last.order == 2 && strcmp(last.call, "ask") == 0 && last.returned == 18);
    IS(nutrameza_store_journal_from(store, ward, 1, 3, 10, take_last, NULL), 256);
    MUST(last.user == 2 && last.at > INT64_C(1600000000000000));
    IS(nutrameza_store_wards(store, count_ward, &wards), 0);
    IS((uint64_t)wards, 1);
    IS(nutrameza_store_policies(store, ward, count_image, &bytes), 0);
    IS(bytes, len);
    settled(ward);
    hang_up();
    return wrong;
}

static int ends(void *context, const nutrameza_store_report *so_far)
{
    ++*(int *)context;
    return so_far->calls >= 2000;
}

static void some_calls(uint64_t user, int count)
{
    nutrameza_store_reply r;
    uint64_t window = open_window(ward, user);
    for (int k = 0; k < count; k++)
        MUST(ask_with(store, user, window, k % 2 ? 1 : 8, NULL, &r) == 0);
}

/* cut: the journal at a verified moment, over versions with and without limits; what is older is gone, tokens too */
int test_cut(char **words)
{
    uint8_t t[16];
    int steps = 0;
    nutrameza_store_reply r;
    nutrameza_store_report report;
    nutrameza_store_watch watch = {&steps, ends, NULL};
    (void)words;
    fresh("cut", 1, 3);
    some_calls(0, 5);
    IS(change(0, NOBODY, 3, 0, NULL), 512);
    some_calls(1, 5);
    new_token(t);
    IS(nutrameza_store_open(store, ward, 2, t, &r), 0);
    IS(nutrameza_store_cut(store, ward, 3600, &report), 0); /* all are young */
    IS(report.calls, 13);
    IS(nutrameza_store_open(store, ward, 2, t, &r), 0);
    MUST(r.again);
    nap(1.2);
    some_calls(0, 2);
    IS(nutrameza_store_cut(store, ward, 1, &report), 256 * 10); /* 13 old ones give way to 3 */
    IS((uint64_t)entries(ward), 6);
    settled(ward);
    IS(change(1, NOBODY, 3, 0, NULL), 768);
    some_calls(1, 5);
    settled(ward);
    nap(1.2);
    IS(nutrameza_number_of(nutrameza_store_cut(store, ward, 1, &report)), 0);
    IS((uint64_t)entries(ward), 3);
    settled(ward);
    IS(nutrameza_store_open(store, ward, 2, t, &r), 256); /* a new request by now */
    MUST(!r.again);
    settled(ward);
    some_calls(2, 2500);
    IS(nutrameza_store_verify_watched(store, ward, &watch, &report), NUTRAMEZA_STORE_ENDED);
    IS((uint64_t)steps, 2);
    hang_up();
    return wrong;
}

/* schema: no tables, tables of another version; a store of its own is named */
int test_schema(char **words)
{
    nutrameza_store *s = NULL;
    (void)words;
    IS(nutrameza_store_connect(name, "h", &s), NUTRAMEZA_STORE_SCHEMA);
    IS(nutrameza_store_open(s, "w", 0, NULL, NULL), NUTRAMEZA_STORE_USAGE);
    IS(nutrameza_store_make(s), 0);
    IS(nutrameza_store_make(s), 0);
    IS(nutrameza_store_open(s, "w", 0, NULL, NULL), NUTRAMEZA_STORE_WARD);
    nutrameza_store_disconnect(s);
    sql("UPDATE store SET version = 7");
    IS(nutrameza_store_connect(name, "h", &s), NUTRAMEZA_STORE_SCHEMA + 256 * 7);
    IS(nutrameza_store_make(s), NUTRAMEZA_STORE_SCHEMA + 256 * 7);
    nutrameza_store_disconnect(s);
    sql("UPDATE store SET version = 1");
    IS(nutrameza_store_connect(name, "h", &s), 0);
    nutrameza_store_disconnect(s);
    return wrong;
}
