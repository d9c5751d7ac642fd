/* PostgreSQL: row locks under READ COMMITTED, statements sent in batches (a call is two round trips).
 *
 * A commit is answered once it is on disk. Under limits the ward's lock would be held over that, so a LATE transaction
 * commits without waiting and a small synced one behind it, in the same batch, waits for both: the log is written in
 * order. Nothing is told before. */
#define _POSIX_C_SOURCE 200809L
#include <errno.h>
#include <libpq-fe.h>
#include <poll.h>
#include <stdio.h>
#include <stdlib.h>
#include <string.h>

#include "engine.h"

enum { PENDING = STATEMENTS + 8, INT8 = 20, BYTEA = 17, PATIENCE = 30000, LONG_PATIENCE = 600000 };
enum { PLAIN = -1, COMMITS = -2 };

typedef struct {
    int number;
    on_row each;
    void *context;
} waiting;

typedef struct {
    engine base;
    PGconn *db;
    waiting pending[PENDING];
    int count, ready, late, committed, patience;
    enum outcome worst;
} pg;

static const char clock_now[] = "((extract(epoch FROM clock_timestamp()) * 1000000)::bigint)";

static enum outcome told(pg *p, const PGresult *result)
{
    const char *state = result == NULL ? NULL : PQresultErrorField(result, PG_DIAG_SQLSTATE);
    snprintf(p->base.words, sizeof p->base.words, "postgresql: %s",
             result == NULL ? PQerrorMessage(p->db) : PQresultErrorMessage(result));
    if (PQstatus(p->db) != CONNECTION_OK || state == NULL || strncmp(state, "57P", 3) == 0 ||
        strcmp(state, "25P03") == 0)
        return LOST;
    if (strcmp(state, "40001") == 0 || strcmp(state, "40P01") == 0)
        return RETRY;
    if (strcmp(state, "55P03") == 0)
        return BUSY;
    if (strcmp(state, "23505") == 0)
        return UNIQUE;
    return FAILED;
}

/* Waits for the server's next answer; 0 if it does not come in time or the connection broke. */
static int answered(pg *p)
{
    while (PQisBusy(p->db)) {
        int unsent = PQflush(p->db);
        struct pollfd one = {PQsocket(p->db), POLLIN, 0};
        if (unsent == 1)
            one.events |= POLLOUT;
        int ready = unsent < 0 ? -1 : poll(&one, 1, p->patience);
        if (unsent >= 0 && ready < 0 && errno == EINTR)
            continue;
        if (ready <= 0 || PQconsumeInput(p->db) != 1)
            return 0;
    }
    return 1;
}

/* The next result; NULL at the end of a statement's, and where none comes, *lost being set then. A connection that is
 * silent for too long is not used again. */
static PGresult *next_result(pg *p, int *lost)
{
    *lost = PQstatus(p->db) != CONNECTION_OK || !answered(p);
    if (!*lost)
        return PQgetResult(p->db);
    p->ready = 0;
    snprintf(p->base.words, sizeof p->base.words, "postgresql: no answer: %s", PQerrorMessage(p->db));
    return NULL;
}

static int64_t big_endian(const uint8_t *bytes)
{
    uint64_t number = 0;
    for (int byte = 0; byte < 8; byte++)
        number = number << 8 | bytes[byte];
    return (int64_t)number;
}

static void tell_rows(const PGresult *result, on_row each, void *context)
{
    cell row[MOST_CELLS];
    for (int at = 0; at < PQntuples(result); at++) {
        for (int k = 0; k < PQnfields(result) && k < MOST_CELLS; k++) {
            const uint8_t *bytes = (const uint8_t *)PQgetvalue(result, at, k);
            Oid type = PQftype(result, k);
            row[k] = (cell){0, 0, NULL, 0};
            if (PQgetisnull(result, at, k))
                continue;
            row[k] = (cell){type == BYTEA ? 'b' : 't', 0, bytes, (size_t)PQgetlength(result, at, k)};
            if (type == INT8)
                row[k] = (cell){'i', big_endian(bytes), NULL, 0};
        }
        each(context, row);
    }
}

/* One result of a statement. A commit of a failed transaction answers by the word ROLLBACK, not by an error. */
static void take_result(pg *p, const waiting *w, PGresult *result, enum outcome *worst)
{
    ExecStatusType status = PQresultStatus(result);
    if (status == PGRES_TUPLES_OK || status == PGRES_SINGLE_TUPLE) {
        if (*worst == FINE && w->each != NULL)
            tell_rows(result, w->each, w->context);
    } else if (status == PGRES_COMMAND_OK) {
        int commits = w->number == COMMITS && strcmp(PQcmdStatus(result), "COMMIT") == 0;
        p->committed += commits && *worst == FINE;
        if (w->number == COMMITS && !commits && *worst == FINE)
            *worst = FAILED;
    } else if (*worst == FINE && status != PGRES_PIPELINE_ABORTED) {
        *worst = told(p, result);
    }
}

static void take_statement(pg *p, const waiting *w, enum outcome *worst)
{
    PGresult *result;
    int seen = 0, lost = 0, streams = w->number == REPLAY || w->number == JOURNAL;
    p->patience = streams || w->number == DROP_ENTRIES ? LONG_PATIENCE : PATIENCE;
    if (streams)
        PQsetSingleRowMode(p->db);
    while ((result = next_result(p, &lost)) != NULL) {
        seen = 1;
        take_result(p, w, result, worst);
        PQclear(result);
    }
    if ((lost || !seen) && (*worst == FINE || lost))
        *worst = LOST;
}

/* Takes the answers to all that was sent. */
static enum outcome flush(engine *e)
{
    pg *p = (pg *)e;
    enum outcome worst = p->worst;
    int committing = 0, lost = 0;
    if (worst == FINE && PQpipelineSync(p->db) != 1)
        worst = told(p, NULL);
    for (int k = 0; k < p->count && worst != LOST; k++)
        take_statement(p, &p->pending[k], &worst);
    for (int k = 0; k < p->count; k++)
        committing |= p->pending[k].number == COMMITS;
    PGresult *result = worst == LOST ? NULL : next_result(p, &lost);
    if (result == NULL || PQresultStatus(result) != PGRES_PIPELINE_SYNC)
        worst = LOST;
    PQclear(result);
    if (worst == LOST)
        p->ready = 0;
    if (committing && worst != FINE && (worst == LOST || p->committed > 0))
        worst = UNKNOWN;
    p->count = p->committed = 0;
    p->worst = FINE;
    return worst;
}

static void wait_for(pg *p, int number, on_row each, void *context)
{
    p->pending[p->count++] = (waiting){number, each, context};
}

static enum outcome send(pg *p, int number, const char *text)
{
    if (p->worst != FINE)
        return p->worst;
    if (PQsendQueryParams(p->db, text, 0, NULL, NULL, NULL, NULL, 1) != 1)
        return p->worst = told(p, NULL);
    wait_for(p, number, NULL, NULL);
    return FINE;
}

static enum outcome queue(engine *e, int number, const cell *in, int count, on_row each, void *context)
{
    pg *p = (pg *)e;
    const char *values[MOST_CELLS];
    int lengths[MOST_CELLS], binary[MOST_CELLS];
    uint8_t numbers[MOST_CELLS][8];
    char name[16];
    if (p->count >= PENDING - 8) {
        enum outcome outcome = flush(e);
        if (outcome != FINE)
            return outcome;
    }
    for (int k = 0; k < count; k++) {
        values[k] = in[k].kind == 0 ? NULL : in[k].n == 0 ? "" : in[k].p;
        lengths[k] = (int)in[k].n;
        binary[k] = 1;
        if (in[k].kind != 'i')
            continue;
        for (int byte = 0; byte < 8; byte++)
            numbers[k][byte] = (uint8_t)((uint64_t)in[k].i >> (56 - 8 * byte) & 255);
        values[k] = (const char *)numbers[k];
        lengths[k] = 8;
    }
    snprintf(name, sizeof name, "s%d", number);
    if (PQsendQueryPrepared(p->db, name, count, values, lengths, binary, 1) != 1)
        return p->worst = told(p, NULL);
    wait_for(p, number, each, context);
    return FINE;
}

/* Runs a text outside the pipeline; keep: the last rows, to be cleared by the caller. */
static enum outcome plain(pg *p, const char *text, PGresult **keep)
{
    PGresult *result;
    enum outcome outcome = PQsendQuery(p->db, text) == 1 ? FINE : told(p, NULL);
    int lost = 0;
    while (outcome != LOST && (result = next_result(p, &lost)) != NULL) {
        ExecStatusType status = PQresultStatus(result);
        if (status != PGRES_COMMAND_OK && status != PGRES_TUPLES_OK)
            outcome = told(p, result);
        if (keep != NULL && status == PGRES_TUPLES_OK) {
            PQclear(*keep);
            *keep = result;
        } else {
            PQclear(result);
        }
    }
    return lost ? LOST : outcome;
}

static enum outcome unfit(pg *p, const char *why)
{
    snprintf(p->base.words, sizeof p->base.words, "postgresql: %s", why);
    return UNFIT;
}

/* A server that keeps what it acknowledges, and the one that this connection stays with: the process that answers is
 * the one that the connection was given. */
static enum outcome judge_server(pg *p)
{
    PGresult *row = NULL;
    enum outcome outcome = plain(p, "SELECT current_setting('fsync'), pg_is_in_recovery(), pg_backend_pid()", &row);
    if (outcome == FINE && (row == NULL || PQntuples(row) != 1))
        outcome = FAILED;
    if (outcome == FINE && strcmp(PQgetvalue(row, 0, 0), "on") != 0)
        outcome = unfit(p, "fsync is off: what is acknowledged is not on disk");
    if (outcome == FINE && strcmp(PQgetvalue(row, 0, 1), "f") != 0)
        outcome = unfit(p, "a replica, and no place to write");
    if (outcome == FINE && atoi(PQgetvalue(row, 0, 2)) != PQbackendPID(p->db))
        outcome = unfit(p, "a pooler in between: what is set for a connection does not stay with it");
    PQclear(row);
    return outcome;
}

static enum outcome find_schema(pg *p)
{
    PGresult *row = NULL;
    p->base.schema = 0;
    enum outcome outcome = plain(p, "SELECT to_regclass('store') IS NULL", &row);
    int none = outcome == FINE && strcmp(PQgetvalue(row, 0, 0), "t") == 0;
    PQclear(row);
    row = NULL;
    if (outcome == FINE && !none)
        outcome = plain(p, "SELECT version FROM store WHERE one = 1", &row);
    if (outcome == FINE && !none && PQntuples(row) == 1)
        p->base.schema = atoi(PQgetvalue(row, 0, 0));
    PQclear(row);
    if (outcome != FINE || p->base.schema == SCHEMA)
        return outcome;
    snprintf(p->base.words, sizeof p->base.words, "postgresql: tables of version %d, not %d", (int)p->base.schema,
             SCHEMA);
    return NO_SCHEMA;
}

/* All statements in one round trip. */
static enum outcome prepare_statements(pg *p)
{
    char name[16], text[MOST_TEXT];
    if (PQenterPipelineMode(p->db) != 1)
        return FAILED;
    p->count = p->committed = 0;
    p->worst = FINE;
    for (int k = 0; k < STATEMENTS; k++) {
        snprintf(name, sizeof name, "s%d", k);
        snprintf(text, sizeof text, nms_statements[k], clock_now);
        if (PQsendPrepare(p->db, name, text, 0, NULL) != 1)
            return told(p, NULL);
        wait_for(p, PLAIN, NULL, NULL);
    }
    return flush(&p->base);
}

/* What a new connection needs. A commit is acknowledged once it is on disk, whatever the server's default; a client
 * that hangs within a transaction loses it, and one that waits for a lock is told. */
static enum outcome prepare(pg *p)
{
    enum outcome outcome =
        plain(p, "SET synchronous_commit = on; SET lock_timeout = '10s'; SET client_min_messages = error;"
                 "SET idle_in_transaction_session_timeout = '5s'; SET tcp_keepalives_idle = 5;"
                 "SET tcp_keepalives_interval = 2; SET tcp_keepalives_count = 3", NULL);
    if (outcome == FINE)
        outcome = judge_server(p);
    if (outcome == FINE)
        outcome = find_schema(p);
    if (outcome == FINE)
        outcome = prepare_statements(p);
    p->ready = outcome == FINE;
    return outcome;
}

static enum outcome begin(engine *e, enum mode mode)
{
    pg *p = (pg *)e;
    p->count = p->committed = 0;
    p->worst = FINE;
    p->late = mode == LATE;
    p->patience = PATIENCE;
    if (PQstatus(p->db) != CONNECTION_OK || !p->ready) {
        p->ready = 0;
        PQreset(p->db);
        if (PQstatus(p->db) != CONNECTION_OK)
            return told(p, NULL);
        enum outcome outcome = prepare(p);
        if (outcome != FINE)
            return outcome;
    }
    if (mode == SNAPSHOT)
        return send(p, PLAIN, "BEGIN ISOLATION LEVEL REPEATABLE READ READ ONLY");
    enum outcome outcome = send(p, PLAIN, "BEGIN ISOLATION LEVEL READ COMMITTED READ WRITE");
    return outcome == FINE && mode == LATE ? send(p, PLAIN, "SET LOCAL synchronous_commit = off") : outcome;
}

static void rollback(engine *e)
{
    pg *p = (pg *)e;
    if (PQstatus(p->db) != CONNECTION_OK || !p->ready)
        return;
    if (p->count > 0)
        flush(e);
    if (p->ready && PQtransactionStatus(p->db) != PQTRANS_IDLE && send(p, PLAIN, "ROLLBACK") == FINE)
        flush(e);
}

/* A transaction that writes to the log and is answered once the log is on disk up to there. */
static enum outcome send_synced(pg *p)
{
    enum outcome outcome = send(p, PLAIN, "BEGIN");
    if (outcome == FINE)
        outcome = send(p, PLAIN, "SELECT pg_logical_emit_message(true, 'nutrameza', '')");
    return outcome == FINE ? send(p, COMMITS, "COMMIT") : outcome;
}

static enum outcome settle(engine *e)
{
    pg *p = (pg *)e;
    p->count = p->committed = 0;
    p->worst = FINE;
    if (PQstatus(p->db) != CONNECTION_OK || !p->ready)
        return LOST;
    enum outcome outcome = send_synced(p);
    if (outcome == FINE)
        outcome = flush(e);
    if (outcome != FINE)
        rollback(e);
    return outcome;
}

/* Where sending fails a part may have gone out: the outcome is not known. */
static enum outcome commit(engine *e)
{
    pg *p = (pg *)e;
    enum outcome outcome = p->worst;
    if (outcome == FINE && (outcome = send(p, COMMITS, "COMMIT")) == LOST)
        outcome = UNKNOWN;
    if (outcome == FINE && p->late && (outcome = send_synced(p)) == LOST)
        outcome = UNKNOWN;
    if (outcome == FINE)
        outcome = flush(e);
    if (outcome != FINE)
        rollback(e);
    return outcome;
}

static enum outcome make_tables(pg *p)
{
    char text[MOST_TEXT];
    enum outcome outcome = FINE;
    for (int k = 0; k < TABLES && outcome == FINE; k++) {
        int used = snprintf(text, sizeof text, nms_tables[k].text, clock_now);
        if (nms_tables[k].storage == CHANGING)
            snprintf(text + used, sizeof text - (size_t)used, " WITH (fillfactor = 50)");
        outcome = plain(p, text, NULL);
    }
    snprintf(text, sizeof text, "INSERT INTO store VALUES(1, %d)", SCHEMA);
    return outcome == FINE ? plain(p, text, NULL) : outcome;
}

/* Whoever makes them first holds the lock until they are there. */
static enum outcome make(engine *e)
{
    pg *p = (pg *)e;
    if (PQstatus(p->db) != CONNECTION_OK || PQpipelineStatus(p->db) != PQ_PIPELINE_OFF)
        return FAILED;
    enum outcome outcome = plain(p, "BEGIN; SELECT pg_advisory_xact_lock(20260)", NULL);
    if (outcome == FINE && (outcome = find_schema(p)) == NO_SCHEMA && p->base.schema == 0)
        outcome = make_tables(p);
    enum outcome ended = plain(p, outcome == FINE ? "COMMIT" : "ROLLBACK", NULL);
    if (outcome == FINE)
        outcome = ended;
    return outcome == FINE ? prepare(p) : outcome;
}

static void finish(engine *e)
{
    PQfinish(((pg *)e)->db);
    free(e);
}

enum outcome nms_postgresql(const char *name, engine **out)
{
    static const char *const keys[] = {"connect_timeout", "tcp_user_timeout", "keepalives_idle", "keepalives_interval",
                                       "keepalives_count", "dbname", NULL};
    const char *const values[] = {"10", "15000", "5", "2", "3", name, NULL}; /* what the name says goes before */
    pg *p = calloc(1, sizeof *p);
    *out = p == NULL ? NULL : &p->base;
    if (p == NULL)
        return FAILED;
    p->base = (engine){begin, queue, flush, commit, settle, rollback, make, finish, 0, ""};
    p->patience = PATIENCE;
    p->db = PQconnectdbParams(keys, values, 1);
    return PQstatus(p->db) == CONNECTION_OK ? prepare(p) : told(p, NULL);
}
