/* The journal replayed through the kit: version by version, under limits by turn, else by user and order, which gives
 * the same (P16, interleaved). Every answer, line and window is compared byte for byte. */
#include <stdio.h>
#include <stdlib.h>
#include <string.h>

#include "store.h"

enum { STEP = 1000 };

static void found(replay *r, uint64_t user, uint64_t order, int incident, const char *what)
{
    nutrameza_store_report *report = r->report;
    nutrameza_store_finding finding = {user, order, incident, what};
    size_t at = strlen(report->words);
    if (incident) {
        report->incidents++;
    } else {
        report->differences++;
        snprintf(report->words + at, sizeof report->words - at, "user %d call %d: %s; ", (int)user, (int)order, what);
    }
    if (r->watch != NULL && r->watch->found != NULL)
        r->watch->found(r->watch->context, &finding);
}

/* An entry that is not what the kit gives. */
static void broken(replay *r, uint64_t user, uint64_t order, const char *what)
{
    r->broken |= user < USERS ? UINT64_C(1) << user : ~UINT64_C(0);
    found(r, user, order, 0, what);
}

/* A line from outside the calls, with its windows: open exactly where the kit shows them open. */
static void replay_import(replay *r, uint64_t user, uint64_t nr, const cell *args)
{
    uint8_t answer[ANSWER];
    const policy *p = &r->store->policy;
    windows *w = &r->now.wins[user];
    if (r->now.nr[user] != 0 || args->n != STATE) {
        broken(r, user, nr, "an imported line after other entries, or of another shape");
        return;
    }
    r->now.nr[user] = nr;
    memcpy(r->now.bytes + user * LINE, args->p, LINE);
    nms_take_windows(w, (const uint8_t *)args->p + LINE);
    for (uint64_t session = 0; session < NUTRAMEZA_SESSIONS; session++) {
        uint64_t shown =
            nutrameza_show(p->image, p->len, r->now.bytes, p->users * LINE, user, session, answer, ANSWER);
        int other = shown == KIT_CLOSED ? w->opened[session] != 0 : shown == 0 && w->opened[session] == 0;
        if (other || w->opened[session] > nr || w->last[session] > nr)
            broken(r, user, nr, "an imported line with other windows");
    }
}

static void replay_mending(replay *r, uint64_t user, uint64_t nr, const cell *args)
{
    uint8_t state[STATE];
    memcpy(state, r->now.bytes + user * LINE, LINE);
    nms_put_windows(state + LINE, &r->now.wins[user]);
    if (args->n == STATE && memcmp(args->p, state, STATE) == 0)
        found(r, user, nr, 1, "the line was mended");
    else
        broken(r, user, nr, "mended into another line");
}

/* A call of the kit. An 11 that the replay does not give was told while a line was damaged. */
static void replay_call(replay *r, uint64_t user, uint64_t nr, const cell *row)
{
    uint8_t answer[ANSWER] = {0}, before[LINE], *line = r->now.bytes + user * LINE;
    uint64_t told = (uint64_t)row[6].i;
    request q = {(int)row[3].i, user, (uint64_t)row[4].i, {0}, row[5].n, NULL};
    size_t wanted = q.call == ASK ? BOUNDS + AIMS : q.call == SHORT_ASK ? BOUNDS : 0;
    if (q.args_len != wanted || q.call < OPEN || q.call >= CALLS) {
        broken(r, user, nr, "no such call");
        return;
    }
    if (wanted > 0)
        memcpy(q.args, row[5].p, wanted);
    memcpy(before, line, LINE);
    uint64_t gives = nms_kit(&r->store->policy, r->now.bytes, &q, answer);
    if (gives != told && nutrameza_number_of(told) == KIT_LINE) {
        memcpy(line, before, LINE);
        found(r, user, nr, 1, "refused for a line that was damaged then");
        return;
    }
    int tells = gives == 0 && (wanted > 0 || q.call == ADOPT);
    if (gives != told)
        broken(r, user, nr, "another number");
    else if (tells ? row[7].n != ANSWER || memcmp(row[7].p, answer, ANSWER) != 0 : row[7].kind != 0)
        broken(r, user, nr, "another answer");
    nms_turn_windows(&r->now.wins[user], q.call, nr, q.window, gives);
}

/* Follows the moment that the journal may be cut at: everything up to the first entry that is too young, of the user
 * or, under limits, of the ward. */
static void follow_base(replay *r, uint64_t user, uint64_t turn, int64_t at)
{
    lines *to = &r->base;
    if (r->base_set)
        return;
    if (at > r->until)
        r->held |= r->limits ? ~UINT64_C(0) : UINT64_C(1) << user;
    if (r->held >> user & 1)
        return;
    memcpy(to->bytes + user * LINE, r->now.bytes + user * LINE, LINE);
    to->wins[user] = r->now.wins[user];
    to->nr[user] = r->now.nr[user];
    r->base_calls++;
    if (turn > 0)
        r->base_turn = turn;
}

static void check_order(replay *r, uint64_t user, uint64_t nr, uint64_t turn, int imported)
{
    if (!imported && nr != r->now.nr[user] + 1)
        broken(r, user, nr, "entries are missing or out of order");
    if (!imported)
        r->now.nr[user] = nr;
    uint64_t wanted = !imported && r->limits ? r->turn + 1 : 0;
    if (turn != wanted)
        broken(r, user, nr, "turns are missing or out of order");
    if (turn > r->turn)
        r->turn = turn;
}

static void replay_entry(void *context, const cell *row)
{
    replay *r = context;
    uint64_t user = (uint64_t)row[0].i, nr = (uint64_t)row[1].i, turn = (uint64_t)row[2].i;
    if (r->ended)
        return;
    r->report->calls++;
    if (user >= r->store->policy.users) {
        broken(r, user, nr, "no such user");
        return;
    }
    check_order(r, user, nr, turn, row[3].i == IMPORTED);
    if (row[3].i == IMPORTED)
        replay_import(r, user, nr, row + 5);
    else if (row[3].i == MENDED)
        replay_mending(r, user, nr, row + 5);
    else
        replay_call(r, user, nr, row);
    follow_base(r, user, turn, row[8].i);
    if (r->report->calls % STEP == 0 && r->watch != NULL && r->watch->step != NULL)
        r->ended = r->watch->step(r->watch->context, r->report);
}

static void check_session(void *context, const cell *row)
{
    replay *r = context;
    uint64_t user = (uint64_t)row[0].i, window = (uint64_t)row[1].i, session = window % NUTRAMEZA_SESSIONS;
    if (user < USERS && r->now.wins[user].opened[session] == window / NUTRAMEZA_SESSIONS) {
        r->listed[user][session] = window;
        return;
    }
    found(r, user, window / NUTRAMEZA_SESSIONS, 0, "a window in the list is not open");
    if (r->strays == USERS)
        return;
    r->stray_user[r->strays] = user;
    r->stray_window[r->strays++] = window;
}

/* The rows as they stand beside the replayed lines. */
static void compare_lines(replay *r, const ward_row *ward)
{
    const lines *l = &r->store->lines;
    for (uint64_t user = 0; user < r->store->policy.users; user++) {
        uint64_t nr = r->now.nr[user];
        const windows *w = &r->now.wins[user];
        if (!(l->seen >> user & 1) || l->damaged >> user & 1) {
            found(r, user, nr, 0, "the line is missing or damaged");
            continue;
        }
        if (l->nr[user] > nr)
            broken(r, user, nr, "the last entries are missing");
        if (l->nr[user] < nr)
            found(r, user, nr, 0, "the line is behind its journal");
        if (l->version[user] != ward->version)
            found(r, user, nr, 0, "a line of another version");
        if (memcmp(l->bytes + user * LINE, r->now.bytes + user * LINE, LINE) != 0)
            found(r, user, nr, 0, "another line");
        if (memcmp(&l->wins[user], w, sizeof *w) != 0)
            found(r, user, nr, 0, "other windows");
        for (size_t session = 0; session < NUTRAMEZA_SESSIONS; session++)
            if (w->opened[session] != 0 && r->listed[user][session] == 0)
                found(r, user, w->opened[session], 0, "an open window is not in the list");
    }
    if (l->strays > 0)
        found(r, USERS, 0, 0, "lines of users that no policy has");
    if (ward->turn != r->turn)
        found(r, USERS, 0, 0, "the ward's turn is another");
}

/* Works on a replay of the ward. The report, which may not be asked for, is empty before; the ward is left behind it. */
uint64_t nms_replayed(nutrameza_store *s, const char *ward, const nutrameza_store_watch *watch,
                      nutrameza_store_report *report, uint64_t (*work)(replay *, uint64_t), uint64_t given)
{
    nutrameza_store_report unasked;
    report = report == NULL ? &unasked : report;
    memset(report, 0, sizeof *report);
    uint64_t returned = nms_enter(s, ward);
    if (returned)
        return returned;
    replay *r = calloc(1, sizeof *r);
    if (r == NULL)
        return nms_leave(s, NUTRAMEZA_STORE_FAILED);
    r->store = s;
    r->watch = watch;
    r->report = report;
    r->until = INT64_MIN;
    returned = work(r, given);
    free(r);
    return nms_leave(s, returned);
}

/* A version's entries; the journal may be cut within the first version that has one that is too young. */
static uint64_t replay_version(replay *r, uint64_t version)
{
    nutrameza_store *s = r->store;
    uint64_t refused = nms_load(s, version);
    if (refused)
        return refused;
    r->limits = s->policy.limits;
    r->limited |= r->limits;
    r->base_version = r->base_set ? r->base_version : version;
    enum outcome outcome = RUN(s, REPLAY, replay_entry, r, nms_num(s->id), nms_num(version));
    r->base_set |= r->held != 0;
    return outcome == FINE ? 0 : nms_fail(s, outcome);
}

/* Within a transaction: the whole journal, then the rows beside it. 0, or why it could not be read. */
uint64_t nms_replay_all(replay *r, ward_row *ward)
{
    nutrameza_store *s = r->store;
    enum outcome outcome = RUN(s, WARD, nms_take_ward, ward, nms_text(s->ward));
    if (outcome != FINE)
        return nms_fail(s, outcome);
    r->turn = r->base_turn = ward->since;
    for (uint64_t version = ward->first; version <= ward->version && !r->ended; version++) {
        uint64_t refused = replay_version(r, version);
        if (refused)
            return refused;
    }
    if (r->ended)
        return nms_stop(s, NUTRAMEZA_STORE_ENDED);
    memset(&s->lines, 0, sizeof s->lines);
    outcome = RUN(s, LINES_READ, nms_take_line, s, nms_num(s->id));
    if (outcome == FINE)
        outcome = RUN(s, SESSIONS, check_session, r, nms_num(s->id));
    if (outcome != FINE)
        return nms_fail(s, outcome);
    compare_lines(r, ward);
    return 0;
}

static uint64_t verified(replay *r, uint64_t none)
{
    ward_row w = {0, 0, 0, 0, 0, 0};
    uint64_t returned = nms_start(r->store, SNAPSHOT);
    (void)none;
    if (returned == 0 && (returned = nms_replay_all(r, &w)) == 0)
        returned = r->report->differences ? NUTRAMEZA_STORE_DAMAGED + 256 * r->report->differences : 0;
    return nms_stop(r->store, returned);
}

uint64_t nutrameza_store_verify_watched(nutrameza_store *s, const char *ward, const nutrameza_store_watch *watch,
                                        nutrameza_store_report *report)
{
    return nms_replayed(s, ward, watch, report, verified, 0);
}

uint64_t nutrameza_store_verify(nutrameza_store *s, const char *ward, nutrameza_store_report *report)
{
    return nutrameza_store_verify_watched(s, ward, NULL, report);
}
