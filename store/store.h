/* What the files of the store share: a handle with its ward's policy and lines, and how statements are run. Names that
 * the linker sees begin with nms_. */
#ifndef NUTRAMEZA_STORE_INTERNAL_H
#define NUTRAMEZA_STORE_INTERNAL_H

#include "engine.h"
#include "nutrameza_store.h"

enum {
    USERS = NUTRAMEZA_MAX_USERS,
    LINE = NUTRAMEZA_LINE_BYTES,
    WINS = 16 * NUTRAMEZA_SESSIONS,
    STATE = LINE + WINS,
    SET = NUTRAMEZA_SET_BYTES,
    BOUNDS = 2 * SET,
    AIMS = 16,
    ANSWER = NUTRAMEZA_ANSWER_BYTES,
    TOKEN_BYTES = NUTRAMEZA_STORE_TOKEN_BYTES,
    NAME = 64,
    KEPT = 8,
    TRIES = 8
};

/* Numbers of the kit's register that the store names. */
enum { KIT_DONE = 0, KIT_LEDGER = 9, KIT_PERSON = 10, KIT_LINE = 11, KIT_CLOSED = 13 };

/* The calls of the journal. IMPORTED: the line of a file, or of a cut journal. */
enum call { OPEN = 1, ASK, SHORT_ASK, CLOSE, IMPORTED, ADOPT, MENDED, CALLS };

/* The windows of a user: for each session the order number of its open or adoption, 0 if closed, and of what was last
 * done in it. */
typedef struct {
    uint64_t opened[NUTRAMEZA_SESSIONS], last[NUTRAMEZA_SESSIONS];
} windows;

typedef struct {
    uint64_t version;
    uint8_t image[NUTRAMEZA_MAX_IMAGE_BYTES];
    size_t len, users;
    int limits;
} policy;

/* Lines as they were read. Seen: whose row is there; damaged: whose row is not as the store wrote it. */
typedef struct {
    uint64_t seen, damaged, nr[USERS], version[USERS];
    uint8_t bytes[USERS * LINE];
    windows wins[USERS];
    int strays; /* rows of users that no policy can have */
} lines;

typedef struct {
    uint64_t id, version, turn, first, since;
    int found;
} ward_row;

/* A ward by name, with what never changes: its number, 0 if it is not known, and an image by its version. */
typedef struct {
    char ward[NAME];
    uint64_t id;
    policy policy;
} kept_ward;

struct nutrameza_store {
    engine *engine;
    char host[NAME], ward[NAME];
    uint64_t id; /* of the ward that is named, 0 for none */
    policy policy;
    lines lines;
    kept_ward kept[KEPT]; /* the wards that the handle was used for before */
    size_t next;
    char words[400];
    uint8_t token[TOKEN_BYTES]; /* the last one that was made */
    int in_use, usable, unmade; /* unmade: the tables are not there */
    int64_t process;
    uint64_t retried; /* how often a call began anew for a conflict that its locks should have prevented */
};

typedef struct {
    int call;
    uint64_t user, window;
    uint8_t args[BOUNDS + AIMS];
    size_t args_len;
    const uint8_t *token;
} request;

/* What is written for one call of a user. */
typedef struct {
    uint64_t user, nr, turn, window, returned;
    int call;
    const uint8_t *token, *args, *answer;
    size_t args_len;
} entry;

/* rows.c: rows as they are stored, and back. */
cell nms_num(uint64_t number);
cell nms_bytes(const void *bytes, size_t count);
cell nms_text(const char *text);
uint64_t nms_number(const uint8_t *bytes);
void nms_put_number(uint8_t *bytes, uint64_t number);
void nms_put_windows(uint8_t *bytes, const windows *wins);
void nms_take_windows(windows *wins, const uint8_t *bytes);
uint64_t nms_sum(uint64_t ward, uint64_t user, uint64_t nr, uint64_t version, const uint8_t *state);
void nms_take_line(void *store, const cell *row);
void nms_take_ward(void *ward_row, const cell *row);
void nms_take_image(void *policy, const cell *row);
void nms_copy_text(char *to, size_t room, const cell *from);

/* handle.c: a handle's use, transactions and statements. */
uint64_t nms_enter(nutrameza_store *s, const char *ward);
uint64_t nms_leave(nutrameza_store *s, uint64_t returned);
uint64_t nms_start(nutrameza_store *s, enum mode mode);
uint64_t nms_stop(nutrameza_store *s, uint64_t returned);
uint64_t nms_fail(nutrameza_store *s, enum outcome outcome);
uint64_t nms_damaged(nutrameza_store *s, const char *what, uint64_t extra);
uint64_t nms_load(nutrameza_store *s, uint64_t version);
enum outcome nms_run(nutrameza_store *s, int statement, const cell *in, int count, on_row each, void *context);

#define CELLS(...) (const cell[]){__VA_ARGS__}, (int)(sizeof((const cell[]){__VA_ARGS__}) / sizeof(cell))
#define RUN(s, statement, each, context, ...) nms_run(s, statement, CELLS(__VA_ARGS__), each, context)
#define QUEUE(s, statement, each, context, ...) \
    (s)->engine->queue((s)->engine, statement, CELLS(__VA_ARGS__), each, context)

/* call.c: the kit's call, what it makes of the windows, and what is written of it. */
uint64_t nms_kit(const policy *p, uint8_t *ledger, const request *q, uint8_t *answer);
void nms_turn_windows(windows *w, int call, uint64_t nr, uint64_t window, uint64_t returned);
enum outcome nms_put_line(nutrameza_store *s, int statement, uint64_t user, uint64_t nr, uint64_t version);
enum outcome nms_put_entry(nutrameza_store *s, const entry *e, uint64_t version);
uint64_t nms_first_user(uint64_t set);

/* verify.c: the journal replayed. */
typedef struct {
    nutrameza_store *store;
    const nutrameza_store_watch *watch;
    nutrameza_store_report *report;
    lines now, base;                     /* the replayed lines; those of the moment that the journal may be cut at */
    uint64_t listed[USERS][NUTRAMEZA_SESSIONS]; /* the windows in the list of open ones */
    uint64_t turn, base_turn, base_version, base_calls, held;
    uint64_t broken; /* users with an entry that is missing or does not replay */
    int64_t until;   /* no entry after this time goes into the base */
    uint64_t stray_user[USERS], stray_window[USERS]; /* windows in that list that are not open */
    size_t strays;
    int limits, limited, ended, base_set; /* limited: some version had limits */
} replay;

uint64_t nms_replayed(nutrameza_store *s, const char *ward, const nutrameza_store_watch *watch,
                      nutrameza_store_report *report, uint64_t (*work)(replay *, uint64_t), uint64_t given);
uint64_t nms_replay_all(replay *r, ward_row *ward);

#endif
