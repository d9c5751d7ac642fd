/* SQLite: one writer at a time on the whole file, so that every history is serial as it stands. A commit is on disk
 * (write-ahead log, synchronous FULL) before any other connection sees it. */
#include <sqlite3.h>
#include <stdio.h>
#include <stdlib.h>
#include <string.h>

#include "engine.h"

enum { BUSY_MILLISECONDS = 10000 };

typedef struct {
    engine base;
    sqlite3 *db;
    sqlite3_stmt *prepared[STATEMENTS];
} lite;

static const char clock_now[] = "(CAST((julianday('now') - 2440587.5) * 86400000000 AS INTEGER))";

static enum outcome told(lite *l, int code)
{
    if (code == SQLITE_OK || code == SQLITE_DONE || code == SQLITE_ROW)
        return FINE;
    snprintf(l->base.words, sizeof l->base.words, "sqlite: %s (%d)", sqlite3_errmsg(l->db), code);
    if ((code & 255) == SQLITE_BUSY)
        return BUSY;
    if (code == SQLITE_CONSTRAINT_UNIQUE || code == SQLITE_CONSTRAINT_PRIMARYKEY)
        return UNIQUE;
    return FAILED;
}

static int execute(lite *l, const char *text) { return sqlite3_exec(l->db, text, NULL, NULL, NULL); }

static enum outcome begin(engine *e, enum mode mode)
{
    lite *l = (lite *)e;
    return told(l, execute(l, mode == SNAPSHOT ? "BEGIN" : "BEGIN IMMEDIATE"));
}

static int prepare(lite *l, int number)
{
    char text[MOST_TEXT], *lock;
    if (l->prepared[number] != NULL)
        return SQLITE_OK;
    snprintf(text, sizeof text, nms_statements[number], clock_now);
    if ((lock = strstr(text, " FOR UPDATE")) != NULL)
        *lock = 0;
    return sqlite3_prepare_v3(l->db, text, -1, SQLITE_PREPARE_PERSISTENT, &l->prepared[number], NULL);
}

static void bind(sqlite3_stmt *s, const cell *in, int count)
{
    for (int k = 0; k < count; k++) {
        char name[16];
        snprintf(name, sizeof name, "$%d", k + 1);
        int at = sqlite3_bind_parameter_index(s, name);
        if (in[k].kind == 'i')
            sqlite3_bind_int64(s, at, in[k].i);
        else if (in[k].kind == 'b')
            sqlite3_bind_blob(s, at, in[k].n == 0 ? "" : in[k].p, (int)in[k].n, SQLITE_STATIC);
        else if (in[k].kind == 't')
            sqlite3_bind_text(s, at, in[k].p, (int)in[k].n, SQLITE_STATIC);
        else
            sqlite3_bind_null(s, at);
    }
}

static void tell_row(sqlite3_stmt *s, on_row each, void *context)
{
    cell row[MOST_CELLS];
    for (int k = 0; k < sqlite3_column_count(s) && k < MOST_CELLS; k++) {
        int type = sqlite3_column_type(s, k);
        row[k] = (cell){0, 0, NULL, 0};
        if (type == SQLITE_INTEGER) {
            row[k] = (cell){'i', sqlite3_column_int64(s, k), NULL, 0};
        } else if (type != SQLITE_NULL) {
            row[k].kind = type == SQLITE_BLOB ? 'b' : 't';
            row[k].p = sqlite3_column_blob(s, k);
            row[k].n = (size_t)sqlite3_column_bytes(s, k);
        }
    }
    each(context, row);
}

static enum outcome queue(engine *e, int number, const cell *in, int count, on_row each, void *context)
{
    lite *l = (lite *)e;
    int code = prepare(l, number);
    if (code != SQLITE_OK)
        return told(l, code);
    sqlite3_stmt *s = l->prepared[number];
    bind(s, in, count);
    while ((code = sqlite3_step(s)) == SQLITE_ROW)
        if (each != NULL)
            tell_row(s, each, context);
    enum outcome outcome = told(l, code == SQLITE_DONE ? code : sqlite3_extended_errcode(l->db));
    sqlite3_reset(s);
    sqlite3_clear_bindings(s);
    return outcome;
}

static enum outcome nothing(engine *e)
{
    (void)e;
    return FINE;
}

static void rollback(engine *e)
{
    lite *l = (lite *)e;
    if (!sqlite3_get_autocommit(l->db))
        execute(l, "ROLLBACK");
}

/* A commit whose sync failed may still be found in the log after a restart: its outcome is not known. */
static enum outcome commit(engine *e)
{
    lite *l = (lite *)e;
    enum outcome outcome = told(l, execute(l, "COMMIT"));
    if (outcome != FINE)
        rollback(e);
    return outcome == FINE || outcome == BUSY ? outcome : UNKNOWN;
}

static void finish(engine *e)
{
    lite *l = (lite *)e;
    for (int k = 0; k < STATEMENTS; k++)
        sqlite3_finalize(l->prepared[k]);
    sqlite3_close(l->db);
    free(l);
}

/* Tries again every millisecond: the built-in handler sleeps up to 100, and whoever sleeps longest starves. */
static int wait_a_little(void *none, int tries)
{
    (void)none;
    sqlite3_sleep(1);
    return tries < BUSY_MILLISECONDS;
}

/* The first number of a query, or what is said to be there where it has no row. */
static enum outcome one_number(lite *l, const char *text, int64_t *number)
{
    sqlite3_stmt *s = NULL;
    int code = sqlite3_prepare_v2(l->db, text, -1, &s, NULL);
    if (code == SQLITE_OK && (code = sqlite3_step(s)) == SQLITE_ROW)
        *number = sqlite3_column_int64(s, 0);
    enum outcome outcome = told(l, code == SQLITE_ROW || code == SQLITE_DONE ? SQLITE_OK : code);
    sqlite3_finalize(s);
    return outcome;
}

static enum outcome find_schema(lite *l)
{
    int64_t tables = 0;
    l->base.schema = 0;
    enum outcome outcome = one_number(l, "SELECT count(*) FROM sqlite_master WHERE name = 'store'", &tables);
    if (outcome == FINE && tables > 0)
        outcome = one_number(l, "SELECT version FROM store WHERE one = 1", &l->base.schema);
    if (outcome != FINE || l->base.schema == SCHEMA)
        return outcome;
    snprintf(l->base.words, sizeof l->base.words, "sqlite: tables of version %d, not %d", (int)l->base.schema, SCHEMA);
    return NO_SCHEMA;
}

static enum outcome make_tables(lite *l)
{
    char text[MOST_TEXT];
    int code = SQLITE_OK;
    for (int k = 0; k < TABLES && code == SQLITE_OK; k++) {
        int used = snprintf(text, sizeof text, nms_tables[k].text, clock_now);
        if (nms_tables[k].storage != INDEX) /* a call writes fewer pages */
            snprintf(text + used, sizeof text - (size_t)used, " WITHOUT ROWID");
        code = execute(l, text);
    }
    snprintf(text, sizeof text, "INSERT INTO store VALUES(1, %d)", SCHEMA);
    return told(l, code == SQLITE_OK ? execute(l, text) : code);
}

static enum outcome make(engine *e)
{
    lite *l = (lite *)e;
    enum outcome outcome = begin(e, WRITE);
    if (outcome != FINE)
        return outcome;
    if ((outcome = find_schema(l)) == NO_SCHEMA && l->base.schema == 0)
        outcome = make_tables(l);
    if (outcome == FINE)
        return commit(e);
    rollback(e);
    return outcome;
}

static int is_wal(void *wal, int columns, char **values, char **names)
{
    (void)names;
    *(int *)wal = columns == 1 && strcmp(values[0], "wal") == 0;
    return 0;
}

/* Where several make a new file at once, the log is set up by one of them and the others wait. */
static enum outcome set_up(lite *l)
{
    int wal = 0, code = SQLITE_BUSY;
    sqlite3_busy_handler(l->db, wait_a_little, NULL);
    sqlite3_extended_result_codes(l->db, 1);
    for (int tries = 0; tries < BUSY_MILLISECONDS && (code & 255) == SQLITE_BUSY; tries++) {
        if (tries > 0)
            sqlite3_sleep(1);
        code = sqlite3_exec(l->db, "PRAGMA journal_mode=WAL", is_wal, &wal, NULL);
    }
    if (code == SQLITE_OK)
        code = execute(l, "PRAGMA synchronous=FULL");
    if (code != SQLITE_OK)
        return told(l, code);
    if (wal)
        return FINE;
    snprintf(l->base.words, sizeof l->base.words, "sqlite: this file system has no write-ahead log");
    return UNFIT;
}

enum outcome nms_sqlite(const char *path, engine **out)
{
    lite *l = calloc(1, sizeof *l);
    *out = l == NULL ? NULL : &l->base;
    if (l == NULL)
        return FAILED;
    l->base = (engine){begin, queue, nothing, commit, nothing, rollback, make, finish, 0, ""};
    enum outcome outcome = told(l, sqlite3_open_v2(path, &l->db, SQLITE_OPEN_READWRITE | SQLITE_OPEN_CREATE, NULL));
    if (outcome == FINE)
        outcome = set_up(l);
    return outcome == FINE ? find_schema(l) : outcome;
}
