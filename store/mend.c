/* What is done with a replay: a damaged line is written anew from it, and the journal is cut where it was verified. */
#include <stdlib.h>
#include <string.h>

#include "store.h"

/* The list of a user's open windows, made to be that of the replay. */
static enum outcome mend_list(nutrameza_store *s, replay *r, uint64_t user)
{
    enum outcome outcome = FINE;
    for (uint64_t session = 0; session < NUTRAMEZA_SESSIONS && outcome == FINE; session++) {
        uint64_t opened = r->now.wins[user].opened[session];
        if (opened != 0 && r->listed[user][session] == 0)
            outcome = QUEUE(s, SESSION_ADD, NULL, NULL, nms_num(s->id), nms_num(user), nms_num(8 * opened + session),
                            nms_text(s->host));
    }
    for (size_t k = 0; k < r->strays && outcome == FINE; k++)
        if (r->stray_user[k] == user)
            outcome = QUEUE(s, SESSION_DROP, NULL, NULL, nms_num(s->id), nms_num(user), nms_num(r->stray_window[k]));
    return outcome;
}

static uint64_t write_mended(nutrameza_store *s, replay *r, uint64_t user, const ward_row *ward)
{
    uint8_t state[STATE];
    uint64_t nr = r->now.nr[user] + 1, turn = s->policy.limits ? ward->turn + 1 : 0;
    int there = (int)(s->lines.seen >> user & 1);
    memcpy(s->lines.bytes + user * LINE, r->now.bytes + user * LINE, LINE);
    s->lines.wins[user] = r->now.wins[user];
    memcpy(state, r->now.bytes + user * LINE, LINE);
    nms_put_windows(state + LINE, &r->now.wins[user]);
    entry e = {user, nr, turn, 0, 0, MENDED, NULL, state, NULL, STATE};
    enum outcome outcome = nms_put_line(s, there ? PUT : NEW_LINE, user, nr, ward->version);
    if (outcome == FINE)
        outcome = nms_put_entry(s, &e, ward->version);
    if (outcome == FINE)
        outcome = mend_list(s, r, user);
    if (outcome == FINE && turn > 0)
        outcome = QUEUE(s, WARD_VERSION, NULL, NULL, nms_num(s->id), nms_num(ward->version), nms_num(turn));
    if (outcome == FINE)
        outcome = s->engine->commit(s->engine);
    return outcome == FINE ? 256 : nms_fail(s, outcome);
}

static int list_as_replayed(const replay *r, uint64_t user)
{
    int same = 1;
    for (size_t session = 0; session < NUTRAMEZA_SESSIONS; session++)
        same &= r->now.wins[user].opened[session] == 0 || r->listed[user][session] != 0;
    for (size_t k = 0; k < r->strays; k++)
        same &= r->stray_user[k] != user;
    return same;
}

static int as_replayed(const replay *r, uint64_t user, const ward_row *ward)
{
    const lines *l = &r->store->lines;
    return (l->seen & ~l->damaged) >> user & 1 && l->nr[user] == r->now.nr[user] && l->version[user] == ward->version &&
           memcmp(l->bytes + user * LINE, r->now.bytes + user * LINE, LINE) == 0 &&
           memcmp(&l->wins[user], &r->now.wins[user], sizeof(windows)) == 0 && list_as_replayed(r, user);
}

/* With the ward and every line locked the journal stands still. A line that is ahead of its journal is not mended: the
 * journal has lost what the line knows. */
static uint64_t mended(replay *r, uint64_t user)
{
    nutrameza_store *s = r->store;
    ward_row ward = {0, 0, 0, 0, 0, 0};
    uint64_t refused = nms_start(s, WRITE);
    if (refused)
        return refused;
    enum outcome outcome = RUN(s, WARD_LOCK, nms_take_ward, &ward, nms_num(s->id));
    if (outcome == FINE)
        outcome = RUN(s, LINES_LOCK, nms_take_line, s, nms_num(s->id));
    if (outcome != FINE)
        return nms_fail(s, outcome);
    if ((refused = nms_replay_all(r, &ward)) != 0)
        return refused;
    if (user >= s->policy.users)
        return nms_stop(s, KIT_PERSON);
    uint64_t whole = r->limited ? ~UINT64_C(0) : UINT64_C(1) << user;
    if (r->broken & whole) /* without limits no other user's entries matter (P16, alone) */
        return nms_damaged(s, "the journal does not replay", 0) + 256 * r->report->differences;
    return as_replayed(r, user, &ward) ? nms_stop(s, 0) : write_mended(s, r, user, &ward);
}

uint64_t nutrameza_store_mend(nutrameza_store *s, const char *ward, uint64_t user, nutrameza_store_report *report)
{
    return nms_replayed(s, ward, NULL, report, mended, user);
}

static void take_time(void *context, const cell *row) { *(int64_t *)context = row[0].i; }

/* Verifies in a snapshot, which locks nothing. */
static uint64_t verified_until(replay *r, uint64_t seconds, ward_row *ward)
{
    nutrameza_store *s = r->store;
    uint64_t refused = nms_start(s, SNAPSHOT);
    int64_t now = 0;
    if (refused)
        return refused;
    enum outcome outcome = nms_run(s, CLOCK, NULL, 0, take_time, &now);
    if (outcome != FINE)
        return nms_fail(s, outcome);
    seconds = seconds > INT32_MAX ? INT32_MAX : seconds;
    r->until = now - (int64_t)seconds * 1000000;
    if ((refused = nms_replay_all(r, ward)) != 0)
        return refused;
    refused = r->report->differences ? NUTRAMEZA_STORE_DAMAGED + 256 * r->report->differences : 0;
    return nms_stop(s, refused);
}

/* The entries up to the base of a user give way to one with the line as it stood then. */
static enum outcome cut_user(replay *r, uint64_t user)
{
    nutrameza_store *s = r->store;
    uint8_t state[STATE];
    uint64_t nr = r->base.nr[user];
    if (nr == 0)
        return FINE;
    r->base_calls--;
    memcpy(state, r->base.bytes + user * LINE, LINE);
    nms_put_windows(state + LINE, &r->base.wins[user]);
    entry e = {user, nr, 0, 0, 0, IMPORTED, NULL, state, NULL, STATE};
    enum outcome outcome = QUEUE(s, DROP_ENTRIES, NULL, NULL, nms_num(s->id), nms_num(user), nms_num(nr));
    return outcome == FINE ? nms_put_entry(s, &e, r->base_version) : outcome;
}

/* No call touches an entry that is written, so that the ward's row is all that is locked: against another cut. */
static uint64_t cut_there(replay *r, const ward_row *verified)
{
    nutrameza_store *s = r->store;
    ward_row ward = {0, 0, 0, 0, 0, 0};
    uint64_t refused = nms_start(s, WRITE);
    if (refused)
        return refused;
    enum outcome outcome = RUN(s, WARD_LOCK, nms_take_ward, &ward, nms_num(s->id));
    if (outcome != FINE)
        return nms_fail(s, outcome);
    if (ward.first != verified->first || ward.since != verified->since)
        return nms_stop(s, NUTRAMEZA_STORE_BUSY);
    for (uint64_t user = 0; user < USERS && outcome == FINE; user++)
        outcome = cut_user(r, user);
    if (outcome == FINE)
        outcome = QUEUE(s, WARD_FIRST, NULL, NULL, nms_num(s->id), nms_num(r->base_version), nms_num(r->base_turn));
    if (outcome == FINE)
        outcome = s->engine->commit(s->engine);
    return outcome == FINE ? 256 * r->base_calls : nms_fail(s, outcome);
}

static uint64_t cut_before(replay *r, uint64_t seconds)
{
    ward_row verified = {0, 0, 0, 0, 0, 0};
    uint64_t refused = verified_until(r, seconds, &verified);
    return refused ? refused : cut_there(r, &verified);
}

uint64_t nutrameza_store_cut(nutrameza_store *s, const char *ward, uint64_t seconds, nutrameza_store_report *report)
{
    return nms_replayed(s, ward, NULL, report, cut_before, seconds);
}
