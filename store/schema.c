/* The tables and the statements over them, alike for every engine.
 *
 * ward     turn: how many calls were made under limits; first, since: the version and turn that the journal starts at
 * policy   rows never change, so that a handle keeps an image by its version
 * line     nr: the user's calls so far; wins: the windows; sum: over all of the row
 * session  the open windows with owner and time
 * journal  every call that was answered; nr counts a user's calls, turn a ward's under limits, both without gaps */
#include "engine.h"

const table nms_tables[TABLES] = {
    {"CREATE TABLE store(one BIGINT PRIMARY KEY, version BIGINT NOT NULL)", ROWS},
    {"CREATE TABLE ward(id BIGINT PRIMARY KEY, name TEXT NOT NULL UNIQUE, version BIGINT NOT NULL,"
     " turn BIGINT NOT NULL, first BIGINT NOT NULL, since BIGINT NOT NULL)", CHANGING},
    {"CREATE TABLE policy(ward BIGINT, version BIGINT, image BYTEA NOT NULL, host TEXT NOT NULL,"
     " at BIGINT NOT NULL DEFAULT %s, PRIMARY KEY(ward, version))", ROWS},
    {"CREATE TABLE line(ward BIGINT, usr BIGINT, nr BIGINT NOT NULL, version BIGINT NOT NULL, bytes BYTEA NOT NULL,"
     " wins BYTEA NOT NULL, sum BIGINT NOT NULL, PRIMARY KEY(ward, usr))", CHANGING},
    {"CREATE TABLE session(ward BIGINT, usr BIGINT, win BIGINT, host TEXT NOT NULL, at BIGINT NOT NULL DEFAULT %s,"
     " PRIMARY KEY(ward, usr, win))", ROWS},
    {"CREATE TABLE journal(ward BIGINT, usr BIGINT, nr BIGINT NOT NULL, turn BIGINT NOT NULL, version BIGINT NOT NULL,"
     " token BYTEA, call BIGINT NOT NULL, win BIGINT NOT NULL, args BYTEA NOT NULL, returned BIGINT NOT NULL,"
     " answer BYTEA, host TEXT NOT NULL, at BIGINT NOT NULL DEFAULT %s, PRIMARY KEY(ward, usr, nr),"
     " UNIQUE(ward, usr, token))", ROWS},
    {"CREATE UNIQUE INDEX journal_turn ON journal(ward, turn) WHERE turn > 0", INDEX},
};

#define A_LINE "SELECT usr, nr, version, bytes, wins, sum FROM line WHERE ward = $1"
#define A_WARD "SELECT id, version, turn, first, since FROM ward WHERE "

const char *const nms_statements[STATEMENTS] = {
    [WARD] = A_WARD "name = $1",
    [TURN] = "UPDATE ward SET turn = turn + 1 WHERE id = $1 RETURNING id, version, turn, first, since",
    [WARD_LOCK] = A_WARD "id = $1 FOR UPDATE",
    [IMAGE] = "SELECT image FROM policy WHERE ward = $1 AND version = $2",
    [LINE_LOCK] = A_LINE " AND usr = $2 FOR UPDATE",
    [LINE_READ] = A_LINE " AND usr = $2",
    [LINES_LOCK] = A_LINE " ORDER BY usr FOR UPDATE",
    [LINES_READ] = A_LINE " ORDER BY usr",
    [TOKEN] = "SELECT nr, version, call, win, args, returned, answer FROM journal"
              " WHERE ward = $1 AND usr = $2 AND token = $3",
    [ENTRY_AT] = "SELECT nr FROM journal WHERE ward = $1 AND usr = $2 AND nr = $3"
                 " UNION ALL SELECT nr FROM journal WHERE ward = $1 AND turn > 0 AND turn = $4",
    [PUT] = "UPDATE line SET nr = $3, version = $4, bytes = $5, wins = $6, sum = $7 WHERE ward = $1 AND usr = $2",
    [ENTRY] = "INSERT INTO journal(ward, usr, nr, turn, version, token, call, win, args, returned, answer, host)"
              " VALUES($1, $2, $3, $4, $5, $6, $7, $8, $9, $10, $11, $12)",
    [SESSION_ADD] = "INSERT INTO session(ward, usr, win, host) VALUES($1, $2, $3, $4)",
    [SESSION_DROP] = "DELETE FROM session WHERE ward = $1 AND usr = $2 AND win = $3",
    [SESSIONS] = "SELECT usr, win, host, at FROM session WHERE ward = $1 ORDER BY usr, win",
    [REPLAY] = "SELECT usr, nr, turn, call, win, args, returned, answer, at FROM journal"
               " WHERE ward = $1 AND version = $2 ORDER BY turn, usr, nr",
    [JOURNAL] = "SELECT usr, nr, version, win, returned, turn, call, host, at, token, args, answer FROM journal"
                " WHERE ward = $1 AND (usr, nr) >= ($2, $3) ORDER BY usr, nr LIMIT $4",
    [WARDS] = "SELECT name, version FROM ward ORDER BY name",
    [POLICIES] = "SELECT version, image, host, at FROM policy WHERE ward = $1 ORDER BY version",
    [NEW_WARD] = "INSERT INTO ward SELECT coalesce(max(id), 0) + 1, CAST($1 AS TEXT), 1, 0, 1, 0 FROM ward"
                 " RETURNING id, version, turn, first, since",
    [NEW_POLICY] = "INSERT INTO policy(ward, version, image, host) VALUES($1, $2, $3, $4)",
    [NEW_LINE] = "INSERT INTO line(ward, usr, nr, version, bytes, wins, sum) VALUES($1, $2, $3, $4, $5, $6, $7)",
    [WARD_VERSION] = "UPDATE ward SET version = $2, turn = $3 WHERE id = $1",
    [WARD_FIRST] = "UPDATE ward SET first = $2, since = $3 WHERE id = $1",
    [DROP_ENTRIES] = "DELETE FROM journal WHERE ward = $1 AND usr = $2 AND nr <= $3",
    [CLOCK] = "SELECT %s",
};
