/* What is read without a lock: the windows of a user, lists, and a ward's image and ledger as they stand. */
#include <string.h>

#include "store.h"

typedef struct {
    int call; /* 0 show, 1 explain, 2 obstacle */
    uint64_t user, window, permission;
    const uint8_t *lower, *upper;
    uint8_t *roles;
} question;

enum { SHOWS, EXPLAINS, OBSTACLES };

static uint64_t answer(const nutrameza_store *s, const question *q, nutrameza_store_reply *reply)
{
    const policy *p = &s->policy;
    const uint8_t *ledger = s->lines.bytes;
    size_t len = p->users * LINE;
    uint64_t session = q->window % NUTRAMEZA_SESSIONS;
    if (q->call == SHOWS)
        return nutrameza_show(p->image, p->len, ledger, len, q->user, session, reply->answer, ANSWER);
    if (q->call == EXPLAINS)
        return nutrameza_explain(p->image, p->len, ledger, len, q->user, session, q->permission);
    return nutrameza_obstacle(p->image, p->len, ledger, len, q->user, session, q->lower, SET, q->upper, SET, q->roles,
                              NUTRAMEZA_OBSTACLE_BYTES);
}

/* The image that the line names; for a user without a line, the ward's. */
static uint64_t read_image(nutrameza_store *s, uint64_t version)
{
    ward_row w = {0, version, 0, 0, 0, 0};
    uint64_t refused = nms_start(s, SNAPSHOT);
    if (refused)
        return refused;
    enum outcome outcome = version == 0 ? RUN(s, WARD, nms_take_ward, &w, nms_text(s->ward)) : FINE;
    if (outcome != FINE)
        return nms_fail(s, outcome);
    refused = nms_load(s, w.version);
    return refused ? refused : nms_stop(s, 0);
}

/* The user's row, for an obstacle all rows, and its image; one round trip where the image is kept. */
static uint64_t read_lines(nutrameza_store *s, const question *q)
{
    lines *l = &s->lines;
    uint64_t refused = nms_start(s, SNAPSHOT);
    if (refused)
        return refused;
    enum outcome outcome = q->call == OBSTACLES
                               ? QUEUE(s, LINES_READ, nms_take_line, s, nms_num(s->id))
                               : QUEUE(s, LINE_READ, nms_take_line, s, nms_num(s->id), nms_num(q->user));
    if (outcome == FINE)
        outcome = s->engine->commit(s->engine);
    if (outcome != FINE)
        return nms_fail(s, outcome == UNKNOWN ? FAILED : outcome);
    if (q->user >= USERS || !(l->seen >> q->user & 1))
        return read_image(s, 0);
    if (l->damaged >> q->user & 1)
        return nms_damaged(s, "the line", q->user + 1);
    uint64_t version = l->version[q->user];
    return s->policy.len > 0 && s->policy.version == version ? 0 : read_image(s, version);
}

/* Under limits what was read may be committed and not yet on disk: it is told once it is. */
static uint64_t looked(nutrameza_store *s, const question *q, nutrameza_store_reply *reply)
{
    lines *l = &s->lines;
    uint64_t refused = read_lines(s, q);
    if (refused)
        return refused;
    reply->version = s->policy.version;
    int seen = q->user < USERS && (l->seen >> q->user & 1);
    if (!seen)
        return q->user < s->policy.users ? nms_damaged(s, "no line", q->user + 1) : KIT_PERSON;
    if (q->call == OBSTACLES && s->policy.limits && l->damaged != 0)
        return nms_damaged(s, "the line", nms_first_user(l->damaged) + 1);
    uint64_t opened = l->wins[q->user].opened[q->window % NUTRAMEZA_SESSIONS];
    if (opened != 0 && opened != q->window / NUTRAMEZA_SESSIONS)
        return NUTRAMEZA_STORE_GONE;
    enum outcome outcome = s->policy.limits ? s->engine->settle(s->engine) : FINE;
    if (outcome != FINE)
        return nms_fail(s, outcome == UNKNOWN ? FAILED : outcome);
    return answer(s, q, reply);
}

static uint64_t look(nutrameza_store *s, const char *ward, question q, nutrameza_store_reply *reply)
{
    nutrameza_store_reply unasked;
    if (reply == NULL)
        reply = &unasked;
    memset(reply, 0, sizeof *reply);
    uint64_t returned = nms_enter(s, ward);
    if (returned)
        return returned;
    if (q.user >= USERS)
        q.user = USERS;
    return nms_leave(s, looked(s, &q, reply));
}

uint64_t nutrameza_store_show(nutrameza_store *s, const char *ward, uint64_t user, uint64_t window,
                              nutrameza_store_reply *reply)
{
    return look(s, ward, (question){SHOWS, user, window, 0, NULL, NULL, NULL}, reply);
}

uint64_t nutrameza_store_explain(nutrameza_store *s, const char *ward, uint64_t user, uint64_t window,
                                 uint64_t permission, nutrameza_store_reply *reply)
{
    return look(s, ward, (question){EXPLAINS, user, window, permission, NULL, NULL, NULL}, reply);
}

uint64_t nutrameza_store_obstacle(nutrameza_store *s, const char *ward, uint64_t user, uint64_t window,
                                  const uint8_t *lower, const uint8_t *upper, uint8_t *roles,
                                  nutrameza_store_reply *reply)
{
    if (lower == NULL || upper == NULL || roles == NULL)
        return NUTRAMEZA_STORE_USAGE;
    return look(s, ward, (question){OBSTACLES, user, window, 0, lower, upper, roles}, reply);
}

/* Who is told the rows of a list, and how many they were. */
typedef struct {
    void (*ward)(void *, const nutrameza_store_ward *);
    void (*session)(void *, const nutrameza_store_session *);
    void (*image)(void *, const nutrameza_store_image *);
    void (*entry)(void *, const nutrameza_store_entry *);
    void *context;
    uint64_t count;
} teller;

static void tell_ward(void *context, const cell *row)
{
    teller *t = context;
    char name[NAME];
    nms_copy_text(name, sizeof name, row);
    nutrameza_store_ward w = {name, (uint64_t)row[1].i};
    t->ward(t->context, &w);
}

static void tell_session(void *context, const cell *row)
{
    teller *t = context;
    char host[NAME];
    nms_copy_text(host, sizeof host, row + 2);
    nutrameza_store_session told = {(uint64_t)row[0].i, (uint64_t)row[1].i, 0, host, row[3].i};
    t->session(t->context, &told);
}

static void tell_image(void *context, const cell *row)
{
    teller *t = context;
    char host[NAME];
    nms_copy_text(host, sizeof host, row + 2);
    nutrameza_store_image told = {(uint64_t)row[0].i, row[1].kind == 'b' ? row[1].p : NULL, row[1].n, host, row[3].i};
    t->image(t->context, &told);
}

static const uint8_t *bytes_of(const cell *c, size_t count)
{
    return c->kind == 'b' && (count == 0 || c->n == count) ? c->p : NULL;
}

static void tell_entry(void *context, const cell *row)
{
    static const char *const words[CALLS] = {"unknown", "open", "ask", "short ask", "close", "import", "adopt", "mend"};
    teller *t = context;
    char host[NAME];
    nms_copy_text(host, sizeof host, row + 7);
    nutrameza_store_entry told = {(uint64_t)row[0].i, (uint64_t)row[1].i, (uint64_t)row[2].i, (uint64_t)row[3].i,
                                  (uint64_t)row[4].i, (uint64_t)row[5].i, words[0], host, row[8].i,
                                  bytes_of(row + 9, TOKEN_BYTES), bytes_of(row + 10, 0), bytes_of(row + 11, ANSWER),
                                  row[10].n};
    if (row[6].i > 0 && row[6].i < CALLS)
        told.call = words[row[6].i];
    t->count++;
    t->entry(t->context, &told);
}

/* Ends a list: what was told is on disk before the list is said to be done. */
static uint64_t listed(nutrameza_store *s, enum outcome outcome, uint64_t returned)
{
    if (outcome == FINE) {
        s->engine->rollback(s->engine);
        outcome = s->engine->settle(s->engine);
    }
    return nms_leave(s, outcome == FINE ? returned : nms_fail(s, outcome == UNKNOWN ? FAILED : outcome));
}

uint64_t nutrameza_store_wards(nutrameza_store *s, void (*each)(void *, const nutrameza_store_ward *), void *context)
{
    teller t = {each, NULL, NULL, NULL, context, 0};
    uint64_t returned = each == NULL ? NUTRAMEZA_STORE_USAGE : nms_enter(s, "");
    if (returned)
        return returned;
    enum outcome outcome = s->engine->begin(s->engine, SNAPSHOT);
    if (outcome == FINE)
        outcome = nms_run(s, WARDS, NULL, 0, tell_ward, &t);
    return listed(s, outcome, 0);
}

uint64_t nutrameza_store_sessions(nutrameza_store *s, const char *ward,
                                  void (*each)(void *, const nutrameza_store_session *), void *context)
{
    teller t = {NULL, each, NULL, NULL, context, 0};
    uint64_t returned = each == NULL ? NUTRAMEZA_STORE_USAGE : nms_enter(s, ward);
    if (returned)
        return returned;
    if ((returned = nms_start(s, SNAPSHOT)) != 0)
        return nms_leave(s, returned);
    return listed(s, RUN(s, SESSIONS, tell_session, &t, nms_num(s->id)), 0);
}

uint64_t nutrameza_store_policies(nutrameza_store *s, const char *ward,
                                  void (*each)(void *, const nutrameza_store_image *), void *context)
{
    teller t = {NULL, NULL, each, NULL, context, 0};
    uint64_t returned = each == NULL ? NUTRAMEZA_STORE_USAGE : nms_enter(s, ward);
    if (returned)
        return returned;
    if ((returned = nms_start(s, SNAPSHOT)) != 0)
        return nms_leave(s, returned);
    return listed(s, RUN(s, POLICIES, tell_image, &t, nms_num(s->id)), 0);
}

uint64_t nutrameza_store_journal_from(nutrameza_store *s, const char *ward, uint64_t user, uint64_t order,
                                      uint64_t most, void (*each)(void *, const nutrameza_store_entry *), void *context)
{
    teller t = {NULL, NULL, NULL, each, context, 0};
    uint64_t returned = each == NULL ? NUTRAMEZA_STORE_USAGE : nms_enter(s, ward);
    if (returned)
        return returned;
    if ((returned = nms_start(s, SNAPSHOT)) != 0)
        return nms_leave(s, returned);
    user = user > USERS ? USERS : user;
    order = order > INT64_MAX ? INT64_MAX : order;
    most = most > INT64_MAX ? INT64_MAX : most;
    enum outcome outcome =
        RUN(s, JOURNAL, tell_entry, &t, nms_num(s->id), nms_num(user), nms_num(order), nms_num(most));
    return listed(s, outcome, 256 * t.count);
}

uint64_t nutrameza_store_journal(nutrameza_store *s, const char *ward,
                                 void (*each)(void *, const nutrameza_store_entry *), void *context)
{
    uint64_t returned = nutrameza_store_journal_from(s, ward, 0, 0, UINT64_MAX, each, context);
    return nutrameza_number_of(returned);
}

static uint64_t exported(nutrameza_store *s)
{
    ward_row w = {0, 0, 0, 0, 0, 0};
    uint64_t returned = nms_start(s, SNAPSHOT);
    if (returned)
        return returned;
    enum outcome outcome = RUN(s, WARD, nms_take_ward, &w, nms_text(s->ward));
    if (outcome == FINE)
        outcome = RUN(s, LINES_READ, nms_take_line, s, nms_num(s->id));
    if (outcome != FINE)
        return nms_fail(s, outcome);
    if ((returned = nms_load(s, w.version)) != 0)
        return returned;
    uint64_t whole = s->policy.users == USERS ? ~UINT64_C(0) : (UINT64_C(1) << s->policy.users) - 1;
    uint64_t sound = s->lines.seen & ~s->lines.damaged;
    if (sound != whole)
        return nms_damaged(s, "the line", nms_first_user((sound ^ whole)) + 1);
    return 0;
}

uint64_t nutrameza_store_export(nutrameza_store *s, const char *ward, uint8_t *image, size_t *image_len,
                                uint8_t *ledger, size_t *ledger_len)
{
    if (image == NULL || image_len == NULL || ledger == NULL || ledger_len == NULL)
        return NUTRAMEZA_STORE_USAGE;
    uint64_t returned = nms_enter(s, ward);
    if (returned)
        return returned;
    if ((returned = exported(s)) != 0)
        return nms_leave(s, returned);
    memcpy(image, s->policy.image, *image_len = s->policy.len);
    memcpy(ledger, s->lines.bytes, *ledger_len = s->policy.users * LINE);
    return listed(s, FINE, 0);
}
