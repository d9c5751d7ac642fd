//! Limits through the C interface (001: CARD): who is barred and from when on, whose line refuses an ask, what a run
//! never does; then calls by the ten thousand under random limits beside the solver.

use nutrameza_tests::compare::{play, spread, Played, Run, Tally};
use nutrameza_tests::gen::policy::{self, Draft};
use nutrameza_tests::gen::{call, ledger, Rng};
use nutrameza_tests::kit::Empty;
use nutrameza_tests::solver::calls::{self, barred, Call};
use nutrameza_tests::solver::image::judge;
use nutrameza_tests::solver::line::{sound, Line, LINE, SESSIONS};
use nutrameza_tests::solver::policy::Policy;
use nutrameza_tests::{ward, words};

fn open(user: u64) -> Call {
    Call::Open { user }
}

/// An ask for permissions below 64, for the fewest of both.
fn ask(user: u64, session: u64, lower: u64) -> Call {
    Call::ShortAsk { user, session, lower: ward::bound(lower), upper: ward::bound(0xff), room: 40 }
}

/// What calls show from a ledger.
fn seen(image: &[u8], ledger: &[u8], calls: &[Call]) -> Vec<ward::Seen> {
    let run = Run { image: image.to_vec(), ledger: ledger.to_vec(), calls: calls.to_vec(), empty: Empty::Somewhere };
    play(&run).iter().map(|played| ward::seen(&played.reply)).collect()
}

/// So many users who all have all of these roles, each carrying the permissions listed of eight, and these further
/// entries.
fn image(users: u32, rows: &[&[u32]], more: &[u32]) -> Vec<u8> {
    let mut list = vec![words::head(users, rows.len() as u32, 8)];
    for (role, row) in (0..).zip(rows) {
        list.extend((0..users).map(|user| words::assignment(user, role)));
        list.extend(row.iter().map(|permission| words::grant(role, *permission)));
    }
    list.extend(more);
    words::bytes(&words::closed(list))
}

/// In how many sessions of all users each limited role is active, with its limit.
fn held(policy: &Policy, ledger: &[u8]) -> Vec<(usize, usize)> {
    let lines: Vec<Line> = ledger.chunks(LINE).map(Line::read).collect();
    let sessions = || lines.iter().flat_map(|line| &line.sessions);
    policy.limits.iter().map(|(role, limit)| (sessions().filter(|session| session.active[*role]).count(), *limit)).collect()
}

#[test]
fn answers_every_example_of_limits_as_the_change_request_says() {
    for case in ward::limit_cases() {
        assert_eq!(seen(&case.image, &case.ledger, &case.calls), case.expected, "{}", case.name);
    }
}

#[test]
fn one_users_windows_hold_a_role_below_its_limit_and_the_next_is_refused() {
    for limit in 2..=9 {
        let image = image(1, &[&[0], &[1]], &[words::limit(0, limit)]);
        let mut calls = vec![open(0); 8];
        calls.extend((0..8).map(|session| ask(0, session, 1)));
        let answers = seen(&image, &[0; LINE], &calls);
        for (session, answer) in (0..8).zip(&answers[8..]) {
            assert_eq!(*answer, if session < limit - 1 { (0, 0, 1, 1) } else { (20, 0, 0, 0) }, "window {session}, t {limit}");
        }
    }
}

#[test]
fn sixty_four_users_hold_a_role_below_its_limit_and_the_next_is_refused() {
    for limit in [2, 3, 8, 9, 63, 64, 65, 128, 255, 256] {
        let image = image(64, &[&[0], &[1]], &[words::limit(0, limit as u32)]);
        let slots: Vec<(u64, u64)> = (0..8).flat_map(|session| (0..64).map(move |user| (63 - user, session))).collect();
        let mut calls: Vec<Call> = slots[..limit].iter().map(|(user, _)| open(*user)).collect();
        calls.extend(slots[..limit].iter().map(|(user, session)| ask(*user, *session, 1)));
        calls.extend([ask(slots[limit - 1].0, slots[limit - 1].1, 2), Call::Close { user: slots[0].0, session: slots[0].1 }]);
        calls.push(ask(slots[limit - 1].0, slots[limit - 1].1, 1));
        let answers = seen(&image, &[0; 64 * LINE], &calls);
        assert!(answers[limit..2 * limit - 1].iter().all(|answer| *answer == (0, 0, 1, 1)), "t {limit}");
        assert_eq!(answers[2 * limit - 1..], [(20, 0, 0, 0), (0, 0, 2, 2), (0, 0, 0, 0), (0, 0, 1, 1)], "t {limit}");
    }
}

#[test]
fn the_same_session_may_ask_again_at_the_limit() {
    let image = image(2, &[&[0], &[0, 1]], &[words::limit(0, 2), words::limit(1, 2)]);
    let calls = [open(0), open(1), ask(0, 0, 1), ask(0, 0, 1), ask(0, 0, 2), ask(0, 0, 1), ask(1, 0, 1), ask(1, 0, 1)];
    let answers = seen(&image, &[0; 2 * LINE], &calls);
    assert_eq!(answers[2..], [(0, 0, 1, 1), (0, 0, 1, 1), (0, 0, 2, 3), (0, 0, 1, 1), (0, 0, 2, 3), (0, 0, 2, 3)]);
}

#[test]
fn an_ask_goes_round_a_barred_role_by_another_that_carries_the_same() {
    let image = image(3, &[&[0], &[0, 1], &[0, 1, 2]], &[words::limit(0, 2), words::limit(1, 2), words::limit(2, 2)]);
    let calls = [open(0), open(1), open(2), open(2), ask(0, 0, 1), ask(1, 0, 1), ask(2, 0, 1), ask(2, 1, 1)];
    assert_eq!(seen(&image, &[0; 3 * LINE], &calls)[4..], [(0, 0, 1, 1), (0, 0, 2, 3), (0, 0, 4, 7), (20, 0, 0, 0)]);
}

#[test]
fn most_takes_the_roles_that_are_left() {
    let image = image(2, &[&[0], &[1], &[2]], &[words::limit(1, 2)]);
    let most = |user| {
        let (lower, upper) = (ward::bound(0), ward::bound(0xff));
        Call::Ask { user, session: 0, lower, upper, objectives: (2, 2), room: 40 }
    };
    let answers = seen(&image, &[0; 2 * LINE], &[open(0), open(1), most(0), most(1), most(0)]);
    assert_eq!(answers[2..], [(0, 0, 7, 7), (0, 0, 5, 5), (0, 0, 7, 7)]);
}

#[test]
fn a_limit_counts_the_role_itself_and_not_the_roles_above_it() {
    let more = [words::senior(1, 0), words::limit(0, 2)];
    let image = image(3, &[&[0], &[1]], &more);
    let calls = [open(0), open(1), open(2), ask(0, 0, 2), ask(1, 0, 2), ask(1, 0, 1), ask(2, 0, 1), ask(0, 0, 1)];
    let answers = seen(&image, &[0; 3 * LINE], &calls);
    assert_eq!(answers[3..], [(0, 0, 2, 3), (0, 0, 2, 3), (0, 0, 1, 1), (0, 0, 2, 3), (0, 0, 2, 3)]);
}

/// The calls of a user that look at all lines under a policy with limits, right and wrong ones, each on session 0.
fn asks_of(user: u64) -> [Call; 5] {
    let (lower, upper) = (ward::bound(1), ward::bound(0xff));
    let (session, room) = (0, 40);
    [
        ask(user, session, 1),
        Call::Ask { user, session, lower: lower.clone(), upper: upper.clone(), objectives: (2, 1), room },
        Call::Clauses { user, session, lower: lower.clone(), upper: upper.clone(), objectives: (2, 1), room: 10_000 },
        Call::Ask { user, session: 99, lower: vec![], upper: lower, objectives: (7, 7), room: 3 },
        Call::Obstacle { user, session, lower: ward::bound(0x80), upper, room: 16 },
    ]
}

#[test]
fn an_ask_is_refused_by_the_lowest_damaged_line_and_told_whose_it_is_unless_it_is_the_askers() {
    let (limited, free) = (image(4, &[&[0], &[1]], &[words::limit(1, 256)]), image(4, &[&[0], &[1]], &[]));
    for damaged in 0..16u32 {
        let mut ledger = vec![0; 4 * LINE];
        (0..4).for_each(|user| ledger[LINE * user] = 1);
        let is_damaged = |user: u64| damaged >> user & 1 == 1;
        (0..4).filter(|user| is_damaged(*user)).for_each(|user| ledger[LINE * user as usize + 1 + user as usize] = 4);
        for user in 0..4 {
            let lowest = (0..4).find(|user| is_damaged(*user));
            for (place, call) in asks_of(user).into_iter().enumerate() {
                let answer = |image: &[u8]| {
                    let (number, extra, ..) = seen(image, &ledger, &[call.clone()])[0];
                    (number, if number == 11 { extra } else { 0 })
                };
                let else_it = if place == 3 { (12, 0) } else { (0, 0) };
                let told = |other: u64| (11, if other == user { 0 } else { other + 1 });
                assert_eq!(answer(&limited), lowest.map_or(else_it, told), "{call:?}, damaged {damaged:b}");
                assert_eq!(answer(&free), if is_damaged(user) { (11, 0) } else { else_it }, "{call:?}, damaged {damaged:b}");
            }
            let others = [
                open(user),
                Call::Show { user, session: 0, room: 40 },
                Call::Explain { user, session: 0, permission: 0 },
                Call::Close { user, session: 0 },
            ];
            let numbers: Vec<_> = seen(&limited, &ledger, &others).iter().map(|answer| (answer.0, answer.1)).collect();
            let sound = [(0, 1), (0, 0), (20, 0), (0, 0)];
            assert_eq!(numbers, if is_damaged(user) { [(11, 0); 4] } else { sound }, "user {user}, damaged {damaged:b}");
        }
    }
}

#[test]
fn a_user_without_a_line_and_a_ledger_that_does_not_fit_come_before_a_damaged_line() {
    let image = image(2, &[&[0]], &[words::limit(0, 2)]);
    for call in asks_of(2) {
        assert_eq!(seen(&image, &[0xff; 2 * LINE], &[call.clone()])[0].0, 10);
        assert_eq!(seen(&image, &[0xff; 2 * LINE - 1], &[call])[0].0, 9);
    }
}

#[test]
fn a_line_over_a_limit_is_sound() {
    let image = ward::image_limited(&[(0, 2), (1, 2)]);
    let ledger = [ward::doctors_in(8), ward::doctors_in(5)].concat();
    let ask = |lower| Call::ShortAsk { user: 1, session: 4, lower: ward::bound(lower), upper: ward::bound(0x1f), room: 40 };
    let calls = [
        Call::Show { user: 1, session: 4, room: 40 },
        ask(0x3),
        ask(0),
        ask(0x3),
        Call::Close { user: 0, session: 0 },
        Call::Explain { user: 1, session: 0, permission: 3 },
        open(1),
    ];
    let none = (20, 0, 0, 0);
    assert_eq!(
        seen(&image, &ledger, &calls),
        [(0, 0, 1, 0xf), none, (0, 0, 0, 0), none, (0, 0, 0, 0), (0, 0, 0, 0), (0, 5, 0, 0)]
    );
}

/// A policy with limits, small mostly.
fn limited(rng: &mut Rng) -> Draft {
    let mut draft = match rng.below(12) {
        0 => policy::policy(rng, policy::MIDDLE),
        1 => policy::overlapping(rng),
        2..=3 => policy::policy(rng, policy::SMALL),
        _ => return policy::limited(rng),
    };
    draft.limit_some(rng);
    draft
}

/// Calls of all sorts on a ledger, asks mostly.
fn some_calls(rng: &mut Rng, policy: &Policy, ledger: &[u8], count: usize) -> Vec<Call> {
    let mut calls = Vec::new();
    for _ in 0..count {
        calls.push(if rng.one_in(6) { call::clauses(rng, policy, ledger) } else { call::any(rng, policy, ledger) });
    }
    calls
}

#[test]
fn runs_from_the_zero_ledger_never_exceed_a_limit() {
    let tally = spread("runs under limits", 2_000, |rng, tally| {
        let image = words::bytes(&limited(rng).words());
        let judged = judge(&image);
        let policy = judged.as_ref().expect("a policy in good order is accepted");
        let mut calls: Vec<Call> = Vec::new();
        for _ in 0..rng.from_to(3, 8) {
            calls.extend((0..policy.users as u64).map(open));
        }
        rng.shuffle(&mut calls);
        let opened = vec![0xff; LINE * policy.users];
        calls.extend(some_calls(rng, policy, &opened, 40));
        let mut ledger = vec![0; LINE * policy.users];
        let run = Run { image: image.clone(), ledger: ledger.clone(), calls: calls.clone(), empty: Empty::Null };
        for (call, played) in calls.iter().zip(play(&run)) {
            if let Some(line) = ledger.chunks_mut(LINE).nth(call.user() as usize) {
                line.copy_from_slice(&played.line);
            }
            tally.see_number(played.reply.number);
            for (count, limit) in held(policy, &ledger) {
                assert!(count < limit, "{count} sessions hold a role of the limit {limit} after {call:?} of {run:?}");
                tally.see(if count == limit - 1 { "one below a limit" } else { "further below a limit" });
            }
        }
    });
    tally.expect(10_000, &["0", "one below a limit", "further below a limit"]);
    tally.expect(2_000, &["20"]);
    assert_eq!(tally.count("11"), 0);
}

#[test]
fn no_call_puts_a_role_over_its_limit_and_one_that_is_over_stays_until_its_sessions_end() {
    let tally = spread("calls from any sound ledger", 6_000, |rng, tally| {
        let (image, policy) = limited(rng).built();
        let mut ledger = ledger::ledger(rng, &policy, 0);
        let calls = some_calls(rng, &policy, &ledger, 8);
        let run = Run { image, ledger: ledger.clone(), calls: calls.clone(), empty: Empty::Null };
        for (call, played) in calls.iter().zip(play(&run)) {
            let before = held(&policy, &ledger);
            if let Some(line) = ledger.chunks_mut(LINE).nth(call.user() as usize) {
                line.copy_from_slice(&played.line);
            }
            for ((before, limit), (after, _)) in before.into_iter().zip(held(&policy, &ledger)) {
                assert!(after < limit || after <= before, "from {before} to {after}, limit {limit}, by {call:?} of {run:?}");
                tally.see(if before < limit { "below" } else { "over" });
            }
        }
    });
    tally.expect(5_000, &["below", "over"]);
}

/// What an ask under limits shows of them, beside what the same call answers without them.
fn see_limits(tally: &mut Tally, policy: &Policy, ledger: &[u8], call: &Call, played: &Played) {
    let free = Policy { limits: Default::default(), ..policy.clone() };
    let without = calls::play(&Ok(free), &mut ledger.to_vec(), call);
    tally.see(match (played.reply.number, without.number) {
        (20, 0) => "none for the limits",
        (0, 0) if matches!(call, Call::Clauses { .. }) && played.reply.answer != without.answer => "another text",
        (0, 20) => "an obstacle for the limits",
        (0, 0) if matches!(call, Call::Obstacle { .. }) => "an obstacle without them too",
        (0, 0) if played.reply.answer != without.answer => "another set",
        (0, 0) => "as without limits",
        (11, 11) if played.reply.extra == 0 => "the asker's line",
        (11, _) if played.reply.extra <= call.user() => "a lower line",
        (11, _) => "a higher line",
        _ => "refused otherwise",
    });
    if played.reply.number == 0 {
        let barred = barred(policy, LINE, ledger, call).len();
        tally.see(if barred == 0 { "no barred role" } else { "barred roles" });
    }
}

#[test]
fn answers_calls_under_random_limits_as_the_solver_does() {
    let tally = spread("calls under limits", 12_000, |rng, tally| {
        let draft = if rng.one_in(200) {
            let mut wide = policy::policy(rng, policy::WIDE);
            wide.limit_some(rng);
            wide
        } else {
            limited(rng)
        };
        let (image, policy) = draft.built();
        let damaged = rng.pick(&[0, 0, 0, 12]);
        let mut ledger = ledger::ledger(rng, &policy, damaged);
        if rng.one_in(40) {
            ledger::misfit(rng, &mut ledger);
        }
        let calls = some_calls(rng, &policy, &ledger, 6);
        let run = Run { image, ledger: ledger.clone(), calls, empty: rng.pick(&[Empty::Null, Empty::Somewhere]) };
        for (call, played) in run.calls.iter().zip(play(&run)) {
            tally.see_number(played.reply.number);
            if call.is_ask() {
                see_limits(tally, &policy, &ledger, call, &played);
            }
            if let Some(line) = ledger.chunks_exact_mut(LINE).nth(call.user() as usize) {
                line.copy_from_slice(&played.line);
            }
        }
    });
    tally.expect(300, &["0", "9", "10", "11", "12", "13", "14", "15", "16", "17", "18", "19", "20"]);
    tally.expect(
        500,
        &["none for the limits", "another set", "another text", "as without limits", "no barred role", "barred roles"],
    );
    tally.expect(200, &["an obstacle for the limits", "an obstacle without them too"]);
    tally.expect(300, &["the asker's line", "a lower line", "a higher line"]);
}

#[test]
fn without_limits_an_ask_answers_the_same_whatever_stands_in_other_lines() {
    let tally = spread("garbage beside", 4_000, |rng, tally| {
        let (image, policy) = policy::of_several(rng).built();
        let (sound, user) = (ledger::ledger(rng, &policy, 0), rng.place(policy.users));
        let mut garbage = rng.bytes(sound.len());
        garbage[LINE * user..LINE * (user + 1)].copy_from_slice(&sound[LINE * user..LINE * (user + 1)]);
        let calls = some_calls(rng, &policy, &sound, 16);
        let calls: Vec<Call> = calls.into_iter().filter(|call| call.user() == user as u64).collect();
        let on = |ledger: Vec<u8>| play(&Run { image: image.clone(), ledger, calls: calls.clone(), empty: Empty::Null });
        let played = on(sound);
        assert_eq!(played, on(garbage));
        calls.iter().zip(&played).filter(|(call, _)| call.is_ask()).for_each(|(_, played)| tally.see_number(played.reply.number));
    });
    tally.expect(800, &["0", "20"]);
    assert_eq!(tally.count("11"), 0);
}

/// The lines of all users but one dealt out anew: who holds a limited role, in which session, is drawn again, and so
/// are all other roles and all histories; in how many sessions a limited role is active stays. All users may activate
/// all roles, nothing is excluded.
fn dealt_anew(rng: &mut Rng, policy: &Policy, ledger: &[u8], user: usize) -> Vec<u8> {
    let others: Vec<usize> = (0..policy.users).filter(|other| *other != user).collect();
    let mut lines: Vec<Line> = ledger.chunks(LINE).map(Line::read).collect();
    let free = |role: &usize| !policy.limits.contains_key(role);
    for role in 0..policy.roles {
        let mut slots: Vec<(usize, usize)> =
            others.iter().flat_map(|user| (0..SESSIONS).map(move |session| (*user, session))).collect();
        let holds = |(user, session): &(usize, usize)| lines[*user].sessions[*session].active[role];
        let count = if free(&role) { rng.place(slots.len() + 1) } else { slots.iter().filter(|slot| holds(slot)).count() };
        rng.shuffle(&mut slots);
        for (place, (user, session)) in slots.into_iter().enumerate() {
            lines[user].sessions[session].active[role] = place < count;
        }
    }
    let mut dealt = ledger.to_vec();
    for other in others {
        let line = &mut lines[other];
        for session in &mut line.sessions {
            (session.open, session.history) = (!rng.one_in(3), session.active);
            session.open |= session.active.contains(&true);
            (0..policy.roles).for_each(|role| session.history[role] |= session.open && rng.one_in(4));
            (0..policy.roles).for_each(|role| line.history[role] |= session.history[role] || rng.one_in(8));
        }
        line.write(&mut dealt[LINE * other..LINE * (other + 1)]);
        assert!(sound(policy, other, &dealt[LINE * other..LINE * (other + 1)]));
    }
    dealt
}

/// A policy with limits in which all users may activate all roles and nothing is excluded.
fn shared(rng: &mut Rng) -> Draft {
    let mut draft = policy::limited(rng);
    draft.entries.retain(|entry| entry.len() == 1);
    let (users, roles) = (draft.users, draft.roles);
    draft.entries.extend((0..users).flat_map(|user| (0..roles).map(move |role| vec![words::assignment(user, role)])));
    rng.shuffle(&mut draft.entries);
    draft
}

#[test]
fn two_ledgers_that_agree_in_counts_and_in_the_lowest_damaged_line_answer_a_user_alike() {
    let tally = spread("agreeing in counts", 6_000, |rng, tally| {
        let (image, policy) = shared(rng).built();
        let user = rng.place(policy.users);
        let mut first = ledger::ledger(rng, &policy, 0);
        let mut second = dealt_anew(rng, &policy, &first, user);
        let others: Vec<usize> = (0..policy.users).filter(|other| *other != user).collect();
        let lowest = if rng.one_in(4) { rng.pick(&others) } else { policy.users };
        for other in others.into_iter().filter(|other| *other >= lowest) {
            for ledger in [&mut first, &mut second] {
                if other == lowest || rng.one_in(2) {
                    ledger[LINE * other + 1 + rng.place(7)] = 1 + rng.below(255) as u8;
                }
            }
        }
        let calls = some_calls(rng, &policy, &first, 24);
        let calls: Vec<Call> = calls.into_iter().filter(|call| call.user() == user as u64).collect();
        let on = |ledger: &[u8]| {
            play(&Run { image: image.clone(), ledger: ledger.to_vec(), calls: calls.clone(), empty: Empty::Null })
        };
        let played = on(&first);
        assert_eq!(played, on(&second), "user {user} under {image:02x?}: {first:02x?} and {second:02x?}");
        for (call, played) in calls.iter().zip(&played).filter(|(call, _)| call.is_ask()) {
            tally.see_number(played.reply.number);
            if played.reply.number == 0 && !barred(&policy, LINE, &first, call).is_empty() {
                tally.see("barred roles");
            }
        }
    });
    tally.expect(1_000, &["0", "11", "20", "barred roles"]);
}
