/* One call of the kit as one transaction: what is locked, loaded, called and written, and how a token is answered
 * again.
 *
 * Without limits a call locks its user's line and reads no other (P16, alone). Under limits it takes the ward's row
 * first, which numbers its turn, and then, in a statement of its own, so that it sees what the lock waited for, the
 * line, for an ask all lines. The order of the journal is that of the commits, since both locks last until then. */
#include <string.h>

#include "store.h"

/* An attempt at a request. Limits: the locks of a policy with limits were taken. Known: the token may be recorded, so
 * it is looked for under the lock. Again: nothing was changed, and the request is to be tried anew. */
typedef struct {
    nutrameza_store *store;
    const request *asked;
    nutrameza_store_reply *reply;
    int limits, known, again;
    ward_row ward;
} attempt;

static int is_ask(int call) { return call == ASK || call == SHORT_ASK; }
static int is_done(uint64_t returned) { return nutrameza_number_of(returned) == KIT_DONE; }

uint64_t nms_first_user(uint64_t set)
{
    uint64_t user = 0;
    while (user < USERS && !(set >> user & 1))
        user++;
    return user;
}

/* The kit's call, alike for a request and for its replay. */
uint64_t nms_kit(const policy *p, uint8_t *ledger, const request *q, uint8_t *answer)
{
    size_t len = p->users * LINE;
    uint64_t session = q->window % NUTRAMEZA_SESSIONS;
    const uint8_t *lower = q->args, *upper = q->args + SET, *aims = q->args + BOUNDS;
    switch (q->call) {
    case OPEN: return nutrameza_open(p->image, p->len, ledger, len, q->user);
    case CLOSE: return nutrameza_close(p->image, p->len, ledger, len, q->user, session);
    case ADOPT: return nutrameza_show(p->image, p->len, ledger, len, q->user, session, answer, ANSWER);
    case SHORT_ASK:
        return nutrameza_short_ask(p->image, p->len, ledger, len, q->user, session, lower, SET, upper, SET, answer,
                                   ANSWER);
    default:
        return nutrameza_ask(p->image, p->len, ledger, len, q->user, session, lower, SET, upper, SET, nms_number(aims),
                             nms_number(aims + 8), answer, ANSWER);
    }
}

/* What a done call makes of the user's windows. */
void nms_turn_windows(windows *w, int call, uint64_t nr, uint64_t window, uint64_t returned)
{
    uint64_t session = (call == OPEN ? nutrameza_extra_of(returned) : window) % NUTRAMEZA_SESSIONS;
    if (!is_done(returned))
        return;
    if (call == OPEN || call == ADOPT)
        w->opened[session] = nr;
    w->last[session] = nr;
    if (call == CLOSE)
        w->opened[session] = w->last[session] = 0;
}

/* Writes a user's line as it stands in the handle, by PUT or NEW_LINE. */
enum outcome nms_put_line(nutrameza_store *s, int statement, uint64_t user, uint64_t nr, uint64_t version)
{
    uint8_t state[STATE];
    memcpy(state, s->lines.bytes + user * LINE, LINE);
    nms_put_windows(state + LINE, &s->lines.wins[user]);
    return QUEUE(s, statement, NULL, NULL, nms_num(s->id), nms_num(user), nms_num(nr), nms_num(version),
                 nms_bytes(state, LINE), nms_bytes(state + LINE, WINS),
                 nms_num(nms_sum(s->id, user, nr, version, state)));
}

/* Writes an entry, and what a done call changes in the list of open windows. */
enum outcome nms_put_entry(nutrameza_store *s, const entry *e, uint64_t version)
{
    cell id = nms_num(s->id), user = nms_num(e->user);
    enum outcome outcome =
        QUEUE(s, ENTRY, NULL, NULL, id, user, nms_num(e->nr), nms_num(e->turn), nms_num(version),
              nms_bytes(e->token, TOKEN_BYTES), nms_num((uint64_t)e->call), nms_num(e->window),
              nms_bytes(e->args_len == 0 ? (const uint8_t *)"" : e->args, e->args_len), nms_num(e->returned),
              nms_bytes(e->answer, ANSWER), nms_text(s->host));
    if (outcome != FINE || !is_done(e->returned))
        return outcome;
    uint64_t session = e->call == OPEN ? nutrameza_extra_of(e->returned) : e->window % NUTRAMEZA_SESSIONS;
    if (e->call == CLOSE || e->call == ADOPT)
        outcome = QUEUE(s, SESSION_DROP, NULL, NULL, id, user, nms_num(e->window));
    if (outcome == FINE && (e->call == OPEN || e->call == ADOPT))
        outcome = QUEUE(s, SESSION_ADD, NULL, NULL, id, user, nms_num(8 * e->nr + session), nms_text(s->host));
    return outcome;
}

typedef struct {
    const request *asked;
    nutrameza_store_reply *reply;
    uint64_t returned;
    int found, same;
} recorded;

static void take_recorded(void *context, const cell *row)
{
    recorded *r = context;
    const request *q = r->asked;
    r->found = 1;
    r->same = row[2].i == q->call && (uint64_t)row[3].i == q->window && row[4].n == q->args_len &&
              (q->args_len == 0 || memcmp(row[4].p, q->args, q->args_len) == 0);
    r->returned = (uint64_t)row[5].i;
    r->reply->order = (uint64_t)row[0].i;
    r->reply->version = (uint64_t)row[1].i;
    if (row[6].kind == 'b' && row[6].n == ANSWER)
        memcpy(r->reply->answer, row[6].p, ANSWER);
}

/* Whether what a recorded call gave is what the window still has. */
static int in_force(const windows *w, const request *q, const recorded *r, uint64_t session)
{
    if (!is_done(r->returned) || q->call == CLOSE)
        return 1;
    return (q->call == OPEN ? w->opened : w->last)[session] == r->reply->order;
}

static void count_row(void *context, const cell *row)
{
    (void)row;
    ++*(int *)context;
}

/* A key was taken, and not the token's: where the next entry is there already, a row was changed behind the store's
 * back; else somebody was faster, and the request is tried anew. */
static uint64_t taken_by_another(attempt *a)
{
    nutrameza_store *s = a->store;
    uint64_t user = a->asked->user;
    int there = 0;
    enum outcome outcome = RUN(s, ENTRY_AT, count_row, &there, nms_num(s->id), nms_num(user),
                               nms_num(s->lines.nr[user] + 1), nms_num(a->ward.turn));
    if (outcome != FINE)
        return nms_fail(s, outcome);
    if (there > 0)
        return nms_damaged(s, "the journal is ahead of the line or of the turn", user + 1);
    a->known = 0;
    a->again = 1;
    s->retried++;
    return nms_stop(s, NUTRAMEZA_STORE_BUSY);
}

/* The recorded answer of a token, under the lock of the user's line; told once the record is on disk. */
static uint64_t repeated(attempt *a, uint64_t if_none)
{
    nutrameza_store *s = a->store;
    const request *q = a->asked;
    recorded r = {q, a->reply, 0, 0, 0};
    enum outcome outcome =
        RUN(s, TOKEN, take_recorded, &r, nms_num(s->id), nms_num(q->user), nms_bytes(q->token, TOKEN_BYTES));
    if (outcome != FINE)
        return nms_fail(s, outcome);
    if (!r.found)
        return if_none == 0 ? taken_by_another(a) : nms_stop(s, if_none);
    s->engine->rollback(s->engine);
    if (a->limits && s->engine->settle(s->engine) != FINE)
        return nms_fail(s, UNKNOWN);
    if (!r.same)
        return NUTRAMEZA_STORE_TOKEN;
    uint64_t session = (q->call == OPEN ? nutrameza_extra_of(r.returned) : q->window) % NUTRAMEZA_SESSIONS;
    a->reply->again = 1;
    if ((q->call == OPEN || q->call == ADOPT) && is_done(r.returned))
        a->reply->window = 8 * a->reply->order + session;
    return in_force(&s->lines.wins[q->user], q, &r, session) ? r.returned : NUTRAMEZA_STORE_OVERTAKEN;
}

/* Begins, and takes the locks and the lines. */
static uint64_t locked(attempt *a)
{
    nutrameza_store *s = a->store;
    a->limits = s->policy.len > 0 && s->policy.limits;
    uint64_t refused = nms_start(s, a->limits ? LATE : WRITE);
    enum outcome outcome = FINE;
    if (refused)
        return refused;
    if (a->limits)
        outcome = QUEUE(s, TURN, nms_take_ward, &a->ward, nms_num(s->id));
    if (outcome == FINE && a->limits && is_ask(a->asked->call))
        outcome = RUN(s, LINES_READ, nms_take_line, s, nms_num(s->id));
    else if (outcome == FINE)
        outcome = RUN(s, LINE_LOCK, nms_take_line, s, nms_num(s->id), nms_num(a->asked->user));
    if (outcome == FINE)
        return 0;
    a->again = outcome == RETRY;
    s->retried += outcome == RETRY;
    return nms_fail(s, outcome);
}

/* A user without a line: none of the policy's, or damage. */
static uint64_t no_line(attempt *a)
{
    nutrameza_store *s = a->store;
    ward_row w = {0, 0, 0, 0, 0, 0};
    enum outcome outcome = RUN(s, WARD, nms_take_ward, &w, nms_text(s->ward));
    if (outcome != FINE)
        return nms_fail(s, outcome);
    uint64_t refused = nms_load(s, w.version);
    if (refused)
        return refused;
    if (a->asked->user < s->policy.users)
        return nms_damaged(s, "no line", a->asked->user + 1);
    return nms_stop(s, KIT_PERSON);
}

/* The image that the line names, and lines that are all there as they were written. */
static uint64_t fitting(attempt *a)
{
    nutrameza_store *s = a->store;
    const lines *l = &s->lines;
    uint64_t user = a->asked->user;
    if (user >= USERS || !(l->seen >> user & 1))
        return no_line(a);
    if (l->damaged >> user & 1)
        return nms_damaged(s, "the line", user + 1);
    uint64_t refused = nms_load(s, l->version[user]);
    if (refused)
        return refused;
    if (s->policy.limits != a->limits) { /* the policy is another one: other locks */
        a->again = 1;
        return nms_stop(s, NUTRAMEZA_STORE_BUSY);
    }
    if (!a->limits || !is_ask(a->asked->call))
        return 0;
    uint64_t whole = s->policy.users == USERS ? ~UINT64_C(0) : (UINT64_C(1) << s->policy.users) - 1;
    if ((l->seen & ~l->damaged) != whole)
        return nms_damaged(s, "the line", nms_first_user(~(l->seen & ~l->damaged) & whole) + 1);
    return 0;
}

/* The kit's judgement, written with all that follows from it. */
static uint64_t carried_out(attempt *a)
{
    nutrameza_store *s = a->store;
    const request *q = a->asked;
    uint64_t user = q->user, nr = s->lines.nr[user] + 1;
    uint64_t returned = nms_kit(&s->policy, s->lines.bytes, q, a->reply->answer);
    int tells = is_done(returned) && (is_ask(q->call) || q->call == ADOPT);
    entry e = {user, nr, a->ward.turn, q->window, returned, q->call, q->token, q->args,
               tells ? a->reply->answer : NULL, q->args_len};
    nms_turn_windows(&s->lines.wins[user], q->call, nr, q->window, returned);
    a->reply->order = nr;
    a->reply->version = s->policy.version;
    if (is_done(returned) && (q->call == OPEN || q->call == ADOPT))
        a->reply->window = 8 * nr + (q->call == OPEN ? nutrameza_extra_of(returned) : q->window % NUTRAMEZA_SESSIONS);
    enum outcome outcome = nms_put_line(s, PUT, user, nr, s->policy.version);
    if (outcome == FINE)
        outcome = nms_put_entry(s, &e, s->policy.version);
    if (outcome == FINE)
        outcome = s->engine->commit(s->engine);
    if (outcome == FINE)
        return returned;
    a->known = outcome == UNIQUE; /* the token is recorded: it is looked for under the lock, in a new transaction */
    a->again = outcome == RETRY || outcome == UNIQUE;
    s->retried += outcome == RETRY;
    return nms_fail(s, outcome);
}

static uint64_t attempted(attempt *a)
{
    const request *q = a->asked;
    uint64_t refused = locked(a);
    if (refused == 0)
        refused = fitting(a);
    if (refused)
        return refused;
    if (a->known)
        return repeated(a, 0);
    uint64_t opened = a->store->lines.wins[q->user].opened[q->window % NUTRAMEZA_SESSIONS];
    if (q->call != OPEN && opened != 0 && opened != q->window / NUTRAMEZA_SESSIONS)
        return repeated(a, NUTRAMEZA_STORE_GONE);
    return carried_out(a);
}

/* A token for a request that the host gave none: the handle's random start, counted up. */
static const uint8_t *own_token(nutrameza_store *s)
{
    for (size_t byte = 0; byte < TOKEN_BYTES && ++s->token[byte] == 0; byte++)
        continue;
    return s->token;
}

static uint64_t perform(nutrameza_store *s, const char *ward, request q, nutrameza_store_reply *reply)
{
    nutrameza_store_reply unasked;
    attempt a = {s, &q, reply == NULL ? &unasked : reply, 0, 0, 1, {0, 0, 0, 0, 0, 0}};
    memset(a.reply, 0, sizeof *a.reply);
    uint64_t returned = nms_enter(s, ward);
    if (returned)
        return returned;
    if (q.user >= USERS)
        q.user = USERS; /* refused by 10 under any policy */
    if (q.token == NULL)
        q.token = own_token(s);
    for (int tries = 0; a.again && tries < TRIES; tries++) {
        a.again = 0;
        memset(a.reply, 0, sizeof *a.reply);
        memset(&s->lines, 0, sizeof s->lines);
        memset(&a.ward, 0, sizeof a.ward);
        returned = attempted(&a);
    }
    memcpy(a.reply->token, q.token, TOKEN_BYTES);
    if (!is_done(returned)) {
        memset(a.reply->answer, 0, ANSWER);
        a.reply->window = 0;
    }
    return nms_leave(s, returned);
}

uint64_t nutrameza_store_open(nutrameza_store *s, const char *ward, uint64_t user, const uint8_t *token,
                              nutrameza_store_reply *reply)
{
    return perform(s, ward, (request){OPEN, user, 0, {0}, 0, token}, reply);
}

uint64_t nutrameza_store_close(nutrameza_store *s, const char *ward, uint64_t user, uint64_t window,
                               const uint8_t *token, nutrameza_store_reply *reply)
{
    return perform(s, ward, (request){CLOSE, user, window, {0}, 0, token}, reply);
}

uint64_t nutrameza_store_adopt(nutrameza_store *s, const char *ward, uint64_t user, uint64_t window,
                               const uint8_t *token, nutrameza_store_reply *reply)
{
    return perform(s, ward, (request){ADOPT, user, window, {0}, 0, token}, reply);
}

static uint64_t asking(nutrameza_store *s, const char *ward, request q, const uint8_t *lower, const uint8_t *upper,
                       nutrameza_store_reply *reply)
{
    if (lower == NULL || upper == NULL)
        return NUTRAMEZA_STORE_USAGE;
    memcpy(q.args, lower, SET);
    memcpy(q.args + SET, upper, SET);
    return perform(s, ward, q, reply);
}

uint64_t nutrameza_store_ask(nutrameza_store *s, const char *ward, uint64_t user, uint64_t window,
                             const uint8_t *lower, const uint8_t *upper, uint64_t permission_aim, uint64_t role_aim,
                             const uint8_t *token, nutrameza_store_reply *reply)
{
    request q = {ASK, user, window, {0}, BOUNDS + AIMS, token};
    nms_put_number(q.args + BOUNDS, permission_aim);
    nms_put_number(q.args + BOUNDS + 8, role_aim);
    return asking(s, ward, q, lower, upper, reply);
}

uint64_t nutrameza_store_short_ask(nutrameza_store *s, const char *ward, uint64_t user, uint64_t window,
                                   const uint8_t *lower, const uint8_t *upper, const uint8_t *token,
                                   nutrameza_store_reply *reply)
{
    return asking(s, ward, (request){SHORT_ASK, user, window, {0}, BOUNDS, token}, lower, upper, reply);
}
