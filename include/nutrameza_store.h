/* The store: wards (a policy and its ledger) in a database, one call of the kit as one transaction. C99 or C++, over
 * nutrameza.h. What a call answers is the kit's own judgement; the store locks, keeps, repeats and replays, and judges
 * nothing by itself. docs/STORE.md says how a host uses it.
 *
 * Every function returns number + 256 * extra as the kit does. 0 to 127 are the kit's own answers: the kit was called,
 * and of an open, ask, short ask, close and adopt the answer is on disk before it is told. 128 and above are the
 * store's: the kit was not called or its answer does not count, and nothing may be switched on.
 * nutrameza_store_word_of has words for each number, and nutrameza_store_error the engine's own.
 *
 * A handle belongs to one thread at a time and is not carried over a fork; open as many as there are threads. No
 * function is called with a handle from within a callback of that handle.
 *
 * While an ask is under way its window has no live role: switch all off, ask, switch on what the answer has. After 1 to
 * 127, BUSY, FAILED or TOKEN switch on again what was there; after UNKNOWN nothing, until the same token tells. */
#ifndef NUTRAMEZA_STORE_H
#define NUTRAMEZA_STORE_H

#include <nutrameza.h>

#ifdef __cplusplus
extern "C" {
#endif

enum nutrameza_store_number {
    NUTRAMEZA_STORE_BUSY = 128,      /* others hold the lock for too long; nothing changed */
    NUTRAMEZA_STORE_FAILED = 129,    /* the storage failed before the commit; nothing changed */
    NUTRAMEZA_STORE_UNKNOWN = 130,   /* connection or disk failed within the commit: repeat with the same token */
    NUTRAMEZA_STORE_WARD = 131,      /* no such ward; of create: it is there already */
    NUTRAMEZA_STORE_TOKEN = 132,     /* the token is recorded for another request */
    NUTRAMEZA_STORE_GONE = 133,      /* the window was closed, released or adopted; its session is another window's */
    NUTRAMEZA_STORE_OVERTAKEN = 134, /* the token's call was done, but what it gave is no longer in force */
    NUTRAMEZA_STORE_STOPS = 135,     /* policy: it stops users, those in the set */
    NUTRAMEZA_STORE_SHRINKS = 136,   /* policy: fewer users than lines */
    NUTRAMEZA_STORE_DAMAGED = 137,   /* a row is missing or not as the store wrote it; the extra is 1 more than the user
                                      * whose line it is, else 0; of verify, mend and cut: how many differences */
    NUTRAMEZA_STORE_USAGE = 138,     /* no handle, a name that is none, a handle in two calls at once or over a fork */
    NUTRAMEZA_STORE_SCHEMA = 139,    /* connect: no tables (extra 0: make them), or those of another version (extra) */
    NUTRAMEZA_STORE_UNFIT = 140,     /* connect: storage that loses what it was told to keep; error says which */
    NUTRAMEZA_STORE_ENDED = 141      /* verify: ended by its watcher */
};

#define NUTRAMEZA_STORE_TOKEN_BYTES 16

typedef struct nutrameza_store nutrameza_store;

/* What a call tells beside its number. */
typedef struct {
    uint64_t window;                            /* of a done open or adopt: 8 times its order number plus the session */
    uint8_t answer[NUTRAMEZA_ANSWER_BYTES];     /* of a done ask, adopt or show; else zero */
    uint64_t order, version;                    /* the call's number among the user's; the image it was made under */
    int again;                                  /* 1 if the token was recorded before, and this is the record */
    uint8_t token[NUTRAMEZA_STORE_TOKEN_BYTES]; /* the request's token: the host's, or the one made for it */
} nutrameza_store_reply;

typedef struct {
    uint64_t user, window;
    uint64_t was; /* of an adopted window: its number before, else 0 */
    const char *host;
    int64_t at; /* microseconds since 1970, by the clock of the database */
} nutrameza_store_session;

/* An entry of the journal. Turn: the call's number among all of the ward's under limits, else 0. Token and answer are
 * NULL where there is none. Args: the bounds and the aims of an ask, 8 bytes each; a line and its windows where one was
 * imported or mended. */
typedef struct {
    uint64_t user, order, version, window, returned, turn;
    const char *call, *host;
    int64_t at;
    const uint8_t *token, *args, *answer;
    size_t args_len;
} nutrameza_store_entry;

typedef struct {
    const char *name;
    uint64_t version;
} nutrameza_store_ward;

typedef struct {
    uint64_t version;
    const uint8_t *image;
    size_t image_len;
    const char *host;
    int64_t at;
} nutrameza_store_image;

/* What a verify found. Difference: journal, lines and windows are not what the kit gives in a replay. Incident: a line
 * that was damaged for a time, an 11 told meanwhile or its mending; the ward is well. */
typedef struct {
    uint64_t calls, differences, incidents;
    char words[400]; /* the first differences */
} nutrameza_store_report;

typedef struct {
    uint64_t user, order;
    int incident; /* 1 for an incident, 0 for a difference */
    const char *words;
} nutrameza_store_finding;

/* Who follows a verify: step is called after every thousand entries and ends it by an answer other than 0, found for
 * each finding. Either may be NULL. */
typedef struct {
    void *context;
    int (*step)(void *context, const nutrameza_store_report *so_far);
    void (*found)(void *context, const nutrameza_store_finding *finding);
} nutrameza_store_watch;

/* Connects: "sqlite:PATH" or "postgresql://..". host names this run of this program, at most 63 bytes, and is never
 * used again by another. *store is set unless memory fails; disconnect it in any case. SCHEMA with extra 0: there are
 * no tables yet, and make is the one call that the handle takes. UNFIT: fsync is off, a replica, a pooler in between, a
 * file system without a write-ahead log. */
uint64_t nutrameza_store_connect(const char *name, const char *host, nutrameza_store **store);
void nutrameza_store_disconnect(nutrameza_store *store);

/* Makes the tables where there are none; 0 too where those of this version are there. */
uint64_t nutrameza_store_make(nutrameza_store *store);

/* The words for the last failure of this handle, the engine's own among them; and for a number. */
const char *nutrameza_store_error(const nutrameza_store *store);
const char *nutrameza_store_word_of(unsigned number);

/* A ward under a policy, its name 1 to 63 bytes: with a zero ledger, or with that of a file, 80 (widened) or 144 bytes
 * a user. */
uint64_t nutrameza_store_create(nutrameza_store *store, const char *ward, const uint8_t *image, size_t image_len,
                                const uint8_t *ledger, size_t ledger_len);

/* The calls. token: 16 bytes, new for each request, the same for its repetition; where it is NULL one is made, and the
 * reply has it. reply may be NULL. Lower and upper are 32 bytes each. */
uint64_t nutrameza_store_open(nutrameza_store *store, const char *ward, uint64_t user, const uint8_t *token,
                              nutrameza_store_reply *reply);
uint64_t nutrameza_store_ask(nutrameza_store *store, const char *ward, uint64_t user, uint64_t window,
                             const uint8_t *lower, const uint8_t *upper, uint64_t permission_aim, uint64_t role_aim,
                             const uint8_t *token, nutrameza_store_reply *reply);
uint64_t nutrameza_store_short_ask(nutrameza_store *store, const char *ward, uint64_t user, uint64_t window,
                                   const uint8_t *lower, const uint8_t *upper, const uint8_t *token,
                                   nutrameza_store_reply *reply);
uint64_t nutrameza_store_close(nutrameza_store *store, const char *ward, uint64_t user, uint64_t window,
                               const uint8_t *token, nutrameza_store_reply *reply);

/* Takes a window over for this host: it gets a new number, which is in the reply beside what is active in it, and
 * whoever has the old number is told GONE. */
uint64_t nutrameza_store_adopt(nutrameza_store *store, const char *ward, uint64_t user, uint64_t window,
                               const uint8_t *token, nutrameza_store_reply *reply);

/* The looks: they lock nothing and are not in the journal. Roles: 16 bytes, the two sets of nutrameza_obstacle. */
uint64_t nutrameza_store_show(nutrameza_store *store, const char *ward, uint64_t user, uint64_t window,
                              nutrameza_store_reply *reply);
uint64_t nutrameza_store_explain(nutrameza_store *store, const char *ward, uint64_t user, uint64_t window,
                                 uint64_t permission, nutrameza_store_reply *reply);
uint64_t nutrameza_store_obstacle(nutrameza_store *store, const char *ward, uint64_t user, uint64_t window,
                                  const uint8_t *lower, const uint8_t *upper, uint8_t *roles,
                                  nutrameza_store_reply *reply);

/* Lists: the wards by name; a ward's open windows by user; its policies by version; its journal by user and order, all
 * of it or from an entry on and at most so many, and then the extra is how many were told. */
uint64_t nutrameza_store_wards(nutrameza_store *store, void (*each)(void *, const nutrameza_store_ward *),
                               void *context);
uint64_t nutrameza_store_sessions(nutrameza_store *store, const char *ward,
                                  void (*each)(void *, const nutrameza_store_session *), void *context);
uint64_t nutrameza_store_policies(nutrameza_store *store, const char *ward,
                                  void (*each)(void *, const nutrameza_store_image *), void *context);
uint64_t nutrameza_store_journal(nutrameza_store *store, const char *ward,
                                 void (*each)(void *, const nutrameza_store_entry *), void *context);
uint64_t nutrameza_store_journal_from(nutrameza_store *store, const char *ward, uint64_t user, uint64_t order,
                                      uint64_t most, void (*each)(void *, const nutrameza_store_entry *),
                                      void *context);

/* The windows of a host that died: closed, or taken over by this one and told one by one. Each is a call of its own.
 * The extra is how many. */
uint64_t nutrameza_store_release(nutrameza_store *store, const char *ward, const char *host);
uint64_t nutrameza_store_adopt_all(nutrameza_store *store, const char *ward, const char *host,
                                   void (*each)(void *, const nutrameza_store_session *), void *context);

/* A new policy between two calls of everybody; the extra of done is the new version. Stopped: the users whose line is
 * not sound under it, user u as bit u. What is done about them: it is refused by STOPS; or their windows are closed
 * under the old policy, in the same transaction, and it is refused only if that does not free them (stopped: those who
 * are left); or their windows are closed and it is put in place even so: the calls of those who are left are refused by
 * 11 from then on, under limits everybody's asks. Their roles must be off at their hosts before windows are closed. */
enum nutrameza_store_go_on {
    NUTRAMEZA_STORE_IF_NONE = 0,
    NUTRAMEZA_STORE_CLOSING = 1,
    NUTRAMEZA_STORE_REGARDLESS = 2
};
uint64_t nutrameza_store_policy(nutrameza_store *store, const char *ward, const uint8_t *image, size_t image_len,
                                int go_on, uint64_t *stopped);

/* Replays the journal through the kit and compares every answer, line and open window. Locks nothing. 0 if all is as
 * it should be; DAMAGED for differences, the extra is how many. Report may be NULL. */
uint64_t nutrameza_store_verify(nutrameza_store *store, const char *ward, nutrameza_store_report *report);
uint64_t nutrameza_store_verify_watched(nutrameza_store *store, const char *ward, const nutrameza_store_watch *watch,
                                        nutrameza_store_report *report);

/* Writes a damaged line anew from the replay of the journal, as an entry of its own; the extra is 1 if it was damaged.
 * DAMAGED if the journal itself does not replay. */
uint64_t nutrameza_store_mend(nutrameza_store *store, const char *ward, uint64_t user, nutrameza_store_report *report);

/* Cuts the journal at a verified moment: entries older than so many seconds give way to one entry a user with the line
 * as it stood then. Their tokens are forgotten, so no request is repeated after that time. The extra is how many
 * entries went. DAMAGED, and nothing is cut, if verify finds differences. */
uint64_t nutrameza_store_cut(nutrameza_store *store, const char *ward, uint64_t seconds,
                             nutrameza_store_report *report);

/* Image and ledger as they stand at one moment; the buffers are of the largest size. */
uint64_t nutrameza_store_export(nutrameza_store *store, const char *ward, uint8_t *image, size_t *image_len,
                                uint8_t *ledger, size_t *ledger_len);

#ifdef __cplusplus
}
#endif

#endif
