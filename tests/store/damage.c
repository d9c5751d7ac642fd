/* Rows changed behind the store's back, one by one: refused at once by the calls, told by verify, mended from the
 * journal. */
#define _DEFAULT_SOURCE
#include "common.h"

static char ward[40];
static uint64_t window, id;

static uint64_t ask_of(uint64_t user, uint64_t w)
{
    nutrameza_store_reply r;
    return short_ask(ward, user, w, 8, &r);
}

static void fresh(int limits)
{
    static int number;
    connect_as("damage", number);
    snprintf(ward, sizeof ward, "damage-%d-%lx", number++, (unsigned long)random64());
    size_t len = make_image(limits, NOBODY, 3, 0);
    IS(nutrameza_store_create(store, ward, image, len, NULL, 0), 0);
    window = open_window(ward, 1);
    open_window(ward, 0);
    IS(ask_of(1, window), 0);
    id = store->id;
}

static const char *blob(int byte, size_t count)
{
    static char text[800];
    char *at = text + sprintf(text, "%s", strncmp(name, "sqlite:", 7) == 0 ? "X'" : "'\\x");
    for (size_t k = 0; k < count; k++)
        at += sprintf(at, "%02x", (unsigned)byte);
    sprintf(at, "'");
    return text;
}

/* The user is refused at once, everybody who asks under limits too, and so is a new policy; verify tells; mended, all
 * is well, and the mending is on record. */
static void refused_and_mended(int limits, const char *what)
{
    nutrameza_store_reply r;
    nutrameza_store_report report;
    uint64_t damaged = NUTRAMEZA_STORE_DAMAGED + 256 * 2;
    IS(ask_of(1, window), damaged);
    IS(nutrameza_store_open(store, ward, 1, NULL, &r), damaged);
    IS(nutrameza_store_show(store, ward, 1, window, &r), damaged);
    IS(ask_of(0, 8), limits ? damaged : 0);
    IS(nutrameza_store_policy(store, ward, image, make_image(limits, NOBODY, 3, 0), 2, NULL), damaged);
    IS(nutrameza_number_of(nutrameza_store_verify(store, ward, &report)), NUTRAMEZA_STORE_DAMAGED);
    MUST(report.differences > 0 && *report.words != 0);
    IS(nutrameza_store_mend(store, ward, 1, &report), 256);
    IS(nutrameza_store_mend(store, ward, 1, &report), 0);
    IS(nutrameza_store_verify(store, ward, &report), 0);
    IS(report.incidents, 1);
    IS(nutrameza_store_show(store, ward, 1, window, &r), 0);
    IS(r.answer[0], 8);
    IS(ask_of(1, window), 0);
    IS(ask_of(0, 8), 0);
    if (wrong)
        printf("after: %s\n", what);
    hang_up();
}

/* The kept row in the place of user 1's. */
static void put_back(void)
{
    sql("UPDATE line SET nr = (SELECT nr FROM kept), bytes = (SELECT bytes FROM kept), wins = (SELECT wins FROM kept),"
        " sum = (SELECT sum FROM kept) WHERE ward = %lu AND usr = 1", (unsigned long)id);
    sql("DROP TABLE kept");
}

/* A line of zeros is sound, and its history is forgotten: refused by the sum. */
static void line_changes(int limits)
{
    static const struct { int byte; size_t count; } made[] = {{0, LINE}, {255, LINE}, {0, LINE - 8}, {0, 0}};
    for (size_t k = 0; k < sizeof made / sizeof *made; k++) {
        fresh(limits);
        const char *bytes = blob(made[k].byte, made[k].count);
        sql("UPDATE line SET bytes = %s WHERE ward = %lu AND usr = 1", bytes, (unsigned long)id);
        refused_and_mended(limits, "other bytes");
    }
    fresh(limits);
    sql("UPDATE line SET wins = %s WHERE ward = %lu AND usr = 1", blob(0, WINS), (unsigned long)id);
    refused_and_mended(limits, "no windows");
    fresh(limits);
    sql("UPDATE line SET nr = nr + 1 WHERE ward = %lu AND usr = 1", (unsigned long)id);
    refused_and_mended(limits, "another order");
    fresh(limits);
    sql("DELETE FROM line WHERE ward = %lu AND usr = 1", (unsigned long)id);
    refused_and_mended(limits, "no line");
    fresh(limits);
    sql("CREATE TABLE kept AS SELECT * FROM line WHERE ward = %lu AND usr = 0", (unsigned long)id);
    put_back();
    refused_and_mended(limits, "another user's line");
}

/* The line of somebody who never called: nothing in the journal says that it is missing. */
static void first_line_missing(int limits)
{
    nutrameza_store_reply r;
    fresh(limits);
    sql("DELETE FROM line WHERE ward = %lu AND usr = 2", (unsigned long)id);
    IS(nutrameza_store_open(store, ward, 2, NULL, &r), NUTRAMEZA_STORE_DAMAGED + 256 * 3);
    IS(nutrameza_store_mend(store, ward, 2, NULL), 256);
    IS(nutrameza_store_open(store, ward, 2, NULL, &r), 0);
    hang_up();
}

/* A row of an hour ago has its right sum: the journal is ahead of it. */
static void set_back(int limits)
{
    nutrameza_store_report report;
    fresh(limits);
    sql("CREATE TABLE kept AS SELECT * FROM line WHERE ward = %lu AND usr = 1", (unsigned long)id);
    IS(ask_of(1, window), 0);
    put_back();
    IS(ask_of(1, window), NUTRAMEZA_STORE_DAMAGED + 256 * 2);
    IS(nutrameza_number_of(nutrameza_store_verify(store, ward, &report)), NUTRAMEZA_STORE_DAMAGED);
    IS(nutrameza_store_mend(store, ward, 1, &report), 256);
    IS(ask_of(1, window), 0);
    IS(nutrameza_store_verify(store, ward, &report), 0);
    hang_up();
}

/* What only a verify can find: it says so in words, and a journal that does not replay mends nothing. */
static void found_by_verify(int limits, const char *words, const char *format)
{
    nutrameza_store_report report;
    fresh(limits);
    IS(ask_of(1, window), 0);
    settled(ward);
    sql(format, (unsigned long)id);
    IS(nutrameza_number_of(nutrameza_store_verify(store, ward, &report)), NUTRAMEZA_STORE_DAMAGED);
    MUST(strstr(report.words, words) != NULL);
    if (strstr(report.words, words) == NULL)
        printf("%s: %s\n", format, report.words);
    if (strstr(format, "journal") != NULL)
        IS(nutrameza_number_of(nutrameza_store_mend(store, ward, 1, &report)), NUTRAMEZA_STORE_DAMAGED);
    IS(nutrameza_number_of(nutrameza_store_cut(store, ward, 0, &report)), NUTRAMEZA_STORE_DAMAGED);
    hang_up();
}

static void journal_changes(int limits)
{
    found_by_verify(limits, "missing or out of order", "DELETE FROM journal WHERE ward = %lu AND usr = 1 AND nr = 2");
    found_by_verify(limits, "missing", "DELETE FROM journal WHERE ward = %lu AND usr = 1 AND nr = 3");
    found_by_verify(limits, "missing", "DELETE FROM journal WHERE ward = %lu AND usr = 1");
    found_by_verify(limits, "another number",
                    "UPDATE journal SET returned = 20 WHERE ward = %lu AND usr = 1 AND nr = 2");
    found_by_verify(limits, "another answer",
                    "UPDATE journal SET answer = NULL WHERE ward = %lu AND usr = 1 AND nr = 2");
    found_by_verify(limits, "not in the list", "DELETE FROM session WHERE ward = %lu AND usr = 1");
    found_by_verify(limits, "is not open", "INSERT INTO session VALUES(%lu, 1, 9999, 'h', 0)");
    if (limits)
        found_by_verify(limits, "turn is another", "UPDATE ward SET turn = turn + 1 WHERE id = %lu");
}

/* An image cut or deleted; a new handle, since rows of policies never change and are kept. */
static void image_changes(int limits)
{
    nutrameza_store_reply r;
    fresh(limits);
    sql("UPDATE policy SET image = %s WHERE ward = %lu", blob(0, 16), (unsigned long)id);
    hang_up();
    connect_as("damage", 99);
    IS(nutrameza_store_open(store, ward, 1, NULL, &r), NUTRAMEZA_STORE_DAMAGED);
    sql("DELETE FROM policy WHERE ward = %lu", (unsigned long)id);
    IS(nutrameza_store_open(store, ward, 1, NULL, &r), NUTRAMEZA_STORE_DAMAGED);
    IS(nutrameza_store_verify(store, ward, NULL), NUTRAMEZA_STORE_DAMAGED);
    hang_up();
}

/* A line of ones whose sum was made to fit: the kit's own 11, for a replay an incident once it is mended. */
static void told_while_damaged(int limits)
{
    uint8_t state[STATE];
    nutrameza_store_report report;
    fresh(limits);
    memset(state, 255, LINE);
    nms_put_windows(state + LINE, &store->lines.wins[1]);
    sql("UPDATE line SET bytes = %s, sum = %ld WHERE ward = %lu AND usr = 1", blob(255, LINE),
        (long)nms_sum(id, 1, 2, 1, state), (unsigned long)id);
    IS(ask_of(1, window), KIT_LINE);
    IS(ask_of(0, 8), limits ? KIT_LINE + 256 * 2 : 0);
    IS(nutrameza_number_of(nutrameza_store_verify(store, ward, &report)), NUTRAMEZA_STORE_DAMAGED);
    IS(nutrameza_store_mend(store, ward, 1, &report), 256);
    IS(ask_of(1, window), 0);
    IS(ask_of(0, 8), 0);
    IS(nutrameza_store_verify(store, ward, &report), 0);
    IS(report.incidents, limits ? 3 : 2);
    hang_up();
}

/* damage: rows changed, cut, deleted, exchanged and set back */
int test_damage(char **words)
{
    (void)words;
    for (int limits = 0; limits < 2; limits++) {
        line_changes(limits);
        first_line_missing(limits);
        set_back(limits);
        journal_changes(limits);
        image_changes(limits);
        told_while_damaged(limits);
    }
    return wrong;
}
