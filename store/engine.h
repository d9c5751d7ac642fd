/* What the store asks of a database: statements by number, run one after the other within a transaction. */
#ifndef NUTRAMEZA_STORE_ENGINE_H
#define NUTRAMEZA_STORE_ENGINE_H

#include <stddef.h>
#include <stdint.h>

/* A parameter or a column: 'i' a number, 'b' bytes, 't' text, 0 null. */
typedef struct {
    int kind;
    int64_t i;
    const void *p;
    size_t n;
} cell;

typedef void (*on_row)(void *context, const cell *row);

/* RETRY: serialization failure or deadlock, nothing changed. UNIQUE: a key is taken, nothing changed. LOST: the
 * connection broke. UNKNOWN: it broke, or the disk failed, within the commit. UNFIT: a storage that does not keep what
 * it was told to. NO_SCHEMA: the tables are not there, or of another version. */
enum outcome { FINE, RETRY, BUSY, UNIQUE, FAILED, LOST, UNKNOWN, UNFIT, NO_SCHEMA };

/* LATE: a write whose locks are given back before it is on disk; commit returns once it is. */
enum mode { WRITE, LATE, SNAPSHOT };

enum { SCHEMA = 1, MOST_CELLS = 16, MOST_TEXT = 1000 };

typedef struct engine engine;
struct engine {
    enum outcome (*begin)(engine *, enum mode);
    /* A statement may be sent and answered later: its rows are there once flush or commit has returned FINE. */
    enum outcome (*queue)(engine *, int statement, const cell *parameters, int count, on_row, void *context);
    enum outcome (*flush)(engine *);
    enum outcome (*commit)(engine *);
    /* Outside a transaction: returns once all that was read in the last one is on disk. */
    enum outcome (*settle)(engine *);
    void (*rollback)(engine *);
    enum outcome (*make)(engine *);
    void (*finish)(engine *);
    int64_t schema; /* the version of the tables that were found, 0 for none */
    char words[300];
};

enum statement {
    WARD, TURN, WARD_LOCK, IMAGE, LINE_LOCK, LINE_READ, LINES_LOCK, LINES_READ, TOKEN, ENTRY_AT, PUT, ENTRY,
    SESSION_ADD, SESSION_DROP, SESSIONS, REPLAY, JOURNAL, WARDS, POLICIES, NEW_WARD, NEW_POLICY, NEW_LINE, WARD_VERSION,
    WARD_FIRST, DROP_ENTRIES, CLOCK, STATEMENTS
};

/* How a table is stored: one whose rows change at every call has room for it. */
enum storage { ROWS, CHANGING, INDEX };

typedef struct {
    const char *text; /* %s: the database's clock */
    enum storage storage;
} table;

enum { TABLES = 7 };
extern const table nms_tables[TABLES];

/* With $n parameters; " FOR UPDATE" at the end is for engines with row locks. %s: the database's clock. */
extern const char *const nms_statements[STATEMENTS];

enum outcome nms_sqlite(const char *path, engine **);
enum outcome nms_postgresql(const char *name, engine **);

#endif
