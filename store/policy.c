/* A ward is made, and its policy changed. A change locks the ward and then every line, so that it stands between two
 * calls of each user, and every line names its version. */
#include <string.h>

#include "store.h"

static size_t users_of(const uint8_t *image, size_t image_len)
{
    policy p;
    cell c = nms_bytes(image, image_len);
    nms_take_image(&p, &c);
    return p.len == 0 ? 0 : p.users;
}

/* The users whom an image stops on the lines of the handle, grown to its users; or the kit's refusal. */
static uint64_t stopped_by(nutrameza_store *s, const uint8_t *image, size_t image_len, uint64_t *set)
{
    uint8_t users[NUTRAMEZA_USERS_BYTES];
    size_t len = users_of(image, image_len) * LINE;
    uint64_t returned = nutrameza_stopped(image, image_len, s->lines.bytes, len, users, sizeof users);
    if (nutrameza_number_of(returned) != KIT_DONE)
        return returned;
    *set = nms_number(users);
    return 0;
}

/* An imported line: an entry of its own, and its open windows belong to that entry and to this host. */
static enum outcome import_line(nutrameza_store *s, const policy *p, uint64_t user)
{
    uint8_t answer[ANSWER], state[STATE];
    windows *w = &s->lines.wins[user];
    enum outcome outcome = FINE;
    for (uint64_t session = 0; session < NUTRAMEZA_SESSIONS && outcome == FINE; session++) {
        if (nutrameza_show(p->image, p->len, s->lines.bytes, p->users * LINE, user, session, answer, ANSWER) != 0)
            continue;
        w->opened[session] = w->last[session] = 1;
        outcome = QUEUE(s, SESSION_ADD, NULL, NULL, nms_num(s->id), nms_num(user), nms_num(8 + session),
                        nms_text(s->host));
    }
    memcpy(state, s->lines.bytes + user * LINE, LINE);
    nms_put_windows(state + LINE, w);
    entry e = {user, 1, 0, 0, 0, IMPORTED, NULL, state, NULL, STATE};
    if (outcome == FINE)
        outcome = nms_put_entry(s, &e, 1);
    return outcome == FINE ? nms_put_line(s, NEW_LINE, user, 1, 1) : outcome;
}

/* The ledger that a ward starts with: zeros, or that of a file, widened where it is of four sessions a user. */
static uint64_t take_ledger(nutrameza_store *s, const policy *p, const uint8_t *ledger, size_t ledger_len)
{
    uint64_t set = 0;
    if (ledger == NULL)
        return 0;
    if (ledger_len == p->users * NUTRAMEZA_OLD_LINE_BYTES)
        return nutrameza_widen(p->image, p->len, ledger, ledger_len, s->lines.bytes, p->users * LINE);
    if (ledger_len != p->users * LINE)
        return KIT_LEDGER;
    memcpy(s->lines.bytes, ledger, ledger_len);
    uint64_t returned = stopped_by(s, p->image, p->len, &set);
    return returned == 0 && set != 0 ? KIT_LINE + 256 * nms_first_user(set) : returned;
}

static enum outcome write_ward(nutrameza_store *s, const policy *p, int imported)
{
    ward_row w = {0, 0, 0, 0, 0, 0};
    enum outcome outcome = s->engine->begin(s->engine, WRITE);
    if (outcome == FINE)
        outcome = RUN(s, NEW_WARD, nms_take_ward, &w, nms_text(s->ward));
    s->id = w.id;
    if (outcome == FINE)
        outcome = QUEUE(s, NEW_POLICY, NULL, NULL, nms_num(s->id), nms_num(1), nms_bytes(p->image, p->len),
                        nms_text(s->host));
    for (uint64_t user = 0; user < p->users && outcome == FINE; user++)
        outcome = imported ? import_line(s, p, user) : nms_put_line(s, NEW_LINE, user, 0, 1);
    return outcome == FINE ? s->engine->commit(s->engine) : outcome;
}

/* A key is taken: the ward's name, or its number by another ward that was made at the same time. */
static int named_already(nutrameza_store *s)
{
    ward_row w = {0, 0, 0, 0, 0, 0};
    s->engine->rollback(s->engine);
    s->id = 0;
    memset(s->lines.wins, 0, sizeof s->lines.wins);
    if (s->engine->begin(s->engine, SNAPSHOT) == FINE)
        RUN(s, WARD, nms_take_ward, &w, nms_text(s->ward));
    s->engine->rollback(s->engine);
    return w.found;
}

uint64_t nutrameza_store_create(nutrameza_store *s, const char *ward, const uint8_t *image, size_t image_len,
                                const uint8_t *ledger, size_t ledger_len)
{
    uint64_t returned = ward == NULL || *ward == 0 ? NUTRAMEZA_STORE_USAGE : nutrameza_check(image, image_len);
    if (returned || (returned = nms_enter(s, ward)) != 0)
        return returned;
    policy *p = &s->policy;
    cell c = nms_bytes(image, image_len);
    nms_take_image(p, &c);
    p->version = 1;
    enum outcome outcome = UNIQUE;
    if ((returned = take_ledger(s, p, ledger, ledger_len)) == 0)
        for (int tries = 0; tries < TRIES && outcome == UNIQUE && returned == 0; tries++)
            if ((outcome = write_ward(s, p, ledger != NULL)) == UNIQUE && named_already(s))
                returned = NUTRAMEZA_STORE_WARD;
    if (returned == 0 && outcome == FINE)
        return nms_leave(s, 0);
    s->id = 0;
    p->len = 0;
    return nms_leave(s, returned ? returned : nms_fail(s, outcome == UNIQUE ? RETRY : outcome));
}

/* Closes every window of these users under the old policy, journalled. Turn: the last turn, counted on under limits. */
static enum outcome close_windows(nutrameza_store *s, uint64_t set, uint64_t *turn)
{
    lines *l = &s->lines;
    enum outcome outcome = FINE;
    for (uint64_t at = 0; at < USERS * NUTRAMEZA_SESSIONS && outcome == FINE; at++) {
        uint64_t user = at / NUTRAMEZA_SESSIONS, session = at % NUTRAMEZA_SESSIONS;
        uint64_t window = 8 * l->wins[user].opened[session] + session;
        request q = {CLOSE, user, window, {0}, 0, NULL};
        if (!(set >> user & 1) || l->wins[user].opened[session] == 0 || user >= s->policy.users)
            continue;
        uint64_t returned = nms_kit(&s->policy, l->bytes, &q, NULL);
        uint64_t nr = ++l->nr[user];
        entry e = {user, nr, s->policy.limits ? ++*turn : 0, window, returned, CLOSE, NULL, NULL, NULL, 0};
        nms_turn_windows(&l->wins[user], CLOSE, nr, window, returned);
        outcome = nms_put_entry(s, &e, s->policy.version);
    }
    return outcome;
}

typedef struct {
    const uint8_t *image;
    size_t image_len;
    int go_on;
    uint64_t *stopped;
    ward_row ward;
} change;

/* Locks the ward and all lines, which must be there as they were written, and loads the policy that is in place. */
static uint64_t lock_all(nutrameza_store *s, change *c)
{
    uint64_t refused = nms_start(s, WRITE);
    if (refused)
        return refused;
    enum outcome outcome = RUN(s, WARD_LOCK, nms_take_ward, &c->ward, nms_num(s->id));
    if (outcome == FINE)
        outcome = RUN(s, LINES_LOCK, nms_take_line, s, nms_num(s->id));
    if (outcome != FINE)
        return nms_fail(s, outcome);
    if ((refused = nms_load(s, c->ward.version)) != 0)
        return refused;
    uint64_t whole = s->policy.users == USERS ? ~UINT64_C(0) : (UINT64_C(1) << s->policy.users) - 1;
    uint64_t sound = s->lines.seen & ~s->lines.damaged;
    return sound == whole ? 0 : nms_damaged(s, "the line", nms_first_user(sound ^ whole) + 1);
}

/* Whom the new policy stops, and what is done about them. */
static uint64_t dealt_with(nutrameza_store *s, change *c)
{
    uint64_t set = 0, left = 0, refused = stopped_by(s, c->image, c->image_len, &set);
    if (refused)
        return nms_stop(s, refused);
    *c->stopped = set;
    if (set == 0)
        return 0;
    if (c->go_on == NUTRAMEZA_STORE_IF_NONE)
        return nms_stop(s, NUTRAMEZA_STORE_STOPS);
    enum outcome outcome = close_windows(s, set, &c->ward.turn);
    if (outcome != FINE)
        return nms_fail(s, outcome);
    if ((refused = stopped_by(s, c->image, c->image_len, &left)) != 0)
        return nms_stop(s, refused);
    if (left == 0 || c->go_on == NUTRAMEZA_STORE_REGARDLESS)
        return 0;
    *c->stopped = left;
    return nms_stop(s, NUTRAMEZA_STORE_STOPS);
}

static uint64_t put_in_place(nutrameza_store *s, const change *c, uint64_t users)
{
    uint64_t version = c->ward.version + 1;
    enum outcome outcome = QUEUE(s, NEW_POLICY, NULL, NULL, nms_num(s->id), nms_num(version),
                                 nms_bytes(c->image, c->image_len), nms_text(s->host));
    for (uint64_t user = 0; user < users && outcome == FINE; user++)
        outcome = nms_put_line(s, user < s->policy.users ? PUT : NEW_LINE, user, s->lines.nr[user], version);
    if (outcome == FINE)
        outcome = QUEUE(s, WARD_VERSION, NULL, NULL, nms_num(s->id), nms_num(version), nms_num(c->ward.turn));
    if (outcome == FINE)
        outcome = s->engine->commit(s->engine);
    return outcome == FINE ? 256 * version : nms_fail(s, outcome);
}

uint64_t nutrameza_store_policy(nutrameza_store *s, const char *ward, const uint8_t *image, size_t image_len,
                                int go_on, uint64_t *stopped)
{
    uint64_t ignored, returned = nutrameza_check(image, image_len);
    change c = {image, image_len, go_on, stopped == NULL ? &ignored : stopped, {0, 0, 0, 0, 0, 0}};
    *c.stopped = 0;
    if (returned || (returned = nms_enter(s, ward)) != 0)
        return returned;
    size_t users = users_of(image, image_len);
    if ((returned = lock_all(s, &c)) == 0 && users < s->policy.users)
        returned = nms_stop(s, NUTRAMEZA_STORE_SHRINKS);
    if (returned == 0)
        returned = dealt_with(s, &c);
    return nms_leave(s, returned ? returned : put_in_place(s, &c, users));
}
