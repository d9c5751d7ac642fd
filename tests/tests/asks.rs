//! Ask and short ask through the C interface: the paper's examples and rules by name, then asks by the hundred thousand
//! beside the solver, which tries all subsets.

use nutrameza_tests::compare::{play, say, spread, Played, Run, Tally};
use nutrameza_tests::gen::{call, damage, ledger, policy, Rng};
use nutrameza_tests::kit::{self, Empty};
use nutrameza_tests::solver::calls::{read_permissions, Call, SHORT_OBJECTIVES};
use nutrameza_tests::solver::line::LINE;
use nutrameza_tests::solver::policy::Policy;
use nutrameza_tests::{ward, words};

/// The numbers that an ask can give.
const NUMBERS: [&str; 22] =
    ["0", "1", "2", "3", "4", "5", "6", "7", "8", "9", "10", "11", "12", "13", "15", "16", "17", "18", "19", "20", "22", "23"];

fn open(user: u64) -> Call {
    Call::Open { user }
}

fn ask(session: u64, lower: u64, upper: u64, objectives: (u64, u64)) -> Call {
    Call::Ask { user: 0, session, lower: ward::bound(lower), upper: ward::bound(upper), objectives, room: 40 }
}

/// What user 0's calls show under an image of one user, from the zero ledger.
fn seen(image: Vec<u8>, calls: Vec<Call>) -> Vec<ward::Seen> {
    let run = Run { image, ledger: vec![0; LINE], calls, empty: Empty::Somewhere };
    play(&run).iter().map(|played| ward::seen(&played.reply)).collect()
}

/// One user with all of these roles, each carrying the permissions listed, under these exclusions.
fn image(rows: &[&[u32]], exclusions: &[Vec<u32>]) -> Vec<u8> {
    let mut list = vec![words::head(1, rows.len() as u32, 64)];
    for (role, row) in (0..).zip(rows) {
        list.push(words::assignment(0, role));
        list.extend(row.iter().map(|permission| words::grant(role, *permission)));
    }
    list.extend(exclusions.concat());
    words::bytes(&words::closed(list))
}

#[test]
fn answers_every_ward_example_as_the_paper_says() {
    for case in ward::cases() {
        assert_eq!(seen(case.image, case.calls), case.expected, "{}", case.name);
    }
}

#[test]
fn takes_more_than_one_role_per_permission_when_most_is_asked() {
    let rows: [&[u32]; 3] = [&[0], &[0, 1], &[2]];
    let asked = |objectives| seen(image(&rows, &[]), vec![open(0), ask(0, 1, 7, objectives)])[1];
    assert_eq!(asked((2, 0)), (0, 0, 6, 7));
    assert_eq!(asked((2, 2)), (0, 0, 7, 7));
    assert_eq!(asked((0, 2)), (0, 0, 7, 7));
    assert_eq!(asked((1, 2)), (0, 0, 1, 1));
    assert_eq!(asked((0, 0)), (0, 0, 1, 1));
}

#[test]
fn a_member_in_two_windows_counts_once() {
    let excluded = [words::exclusion(1, 3, &[0, 1, 2])];
    let calls = vec![open(0), open(0), ask(0, 1, 1, (0, 0)), ask(1, 3, 3, (0, 0))];
    assert_eq!(seen(image(&[&[0], &[1], &[2]], &excluded), calls)[3], (0, 0, 3, 3));
}

#[test]
fn eight_windows_count_together_in_the_kinds_over_all_windows() {
    let rows: [&[u32]; 8] = [&[0], &[1], &[2], &[3], &[4], &[5], &[6], &[7]];
    for kind in 0..4 {
        let excluded = [words::exclusion(kind, 8, &[0, 1, 2, 3, 4, 5, 6, 7])];
        let mut calls = vec![open(0); 8];
        calls.extend((0..8).map(|session| ask(session, 1 << session, 0xff, (1, 1))));
        calls.push(ask(7, 1, 0xff, (1, 1)));
        let seen = seen(image(&rows, &excluded), calls);
        assert!((0..7).all(|session| seen[8 + session] == (0, 0, 1 << session, 1 << session)));
        assert_eq!(seen[15].0, if kind % 2 == 1 { 20 } else { 0 }, "kind {kind}");
        assert_eq!(seen[16], (0, 0, 1, 1));
    }
}

#[test]
fn the_replaced_set_does_not_count() {
    for kind in [0, 1] {
        let excluded = [words::exclusion(kind, 2, &[0, 1])];
        let calls = vec![open(0), ask(0, 1, 1, (0, 0)), ask(0, 2, 2, (0, 0))];
        assert_eq!(seen(image(&[&[0], &[1]], &excluded), calls)[2], (0, 0, 2, 2));
    }
}

#[test]
fn a_closed_sessions_roles_count_in_kind_3() {
    let excluded = [words::exclusion(3, 2, &[0, 1])];
    let calls = vec![open(0), ask(0, 1, 1, (0, 0)), Call::Close { user: 0, session: 0 }, open(0), ask(0, 2, 2, (0, 0))];
    assert_eq!(seen(image(&[&[0], &[1]], &excluded), calls)[4], (20, 0, 0, 0));
}

#[test]
fn ties_go_to_the_lower_set_number() {
    let rows: [&[u32]; 4] = [&[0, 1], &[1, 2], &[0, 2], &[1]];
    assert_eq!(seen(image(&rows, &[]), vec![open(0), ask(0, 2, 7, (0, 1))])[1], (0, 0, 1, 3));
    assert_eq!(seen(image(&rows, &[]), vec![open(0), ask(0, 7, 7, (1, 1))])[1], (0, 0, 3, 7));
}

#[test]
fn an_upper_bound_drops_roles_that_carry_more() {
    let rows: [&[u32]; 3] = [&[0, 5], &[0, 1], &[1]];
    assert_eq!(seen(image(&rows, &[]), vec![open(0), ask(0, 1, 3, (2, 0))])[1], (0, 0, 2, 3));
    assert_eq!(seen(image(&rows, &[]), vec![open(0), ask(0, 1, 1, (2, 0))])[1], (20, 0, 0, 0));
}

#[test]
fn tests_run_in_number_order_from_the_bounds_to_the_room() {
    let (good, beyond, long) = (ward::bound(1), ward::bound(0x20), vec![0u8; 33]);
    let asked = |lower: &Vec<u8>, upper: &Vec<u8>, objective, room| {
        let (lower, upper) = (lower.clone(), upper.clone());
        let call = Call::Ask { user: 0, session: 0, lower, upper, objectives: (0, objective), room };
        seen(ward::image_a(), vec![open(0), call])[1].0
    };
    assert_eq!(asked(&long, &beyond, 3, 0), 15);
    assert_eq!(asked(&beyond, &long, 3, 0), 15);
    assert_eq!(asked(&vec![], &good, 0, 40), 15);
    assert_eq!(asked(&beyond, &good, 3, 0), 16);
    assert_eq!(asked(&good, &beyond, 3, 0), 16);
    assert_eq!(asked(&ward::bound(2), &good, 3, 0), 17);
    assert_eq!(asked(&good, &ward::bound(0x1f), 3, 0), 18);
    assert_eq!(asked(&good, &ward::bound(1), 0, 0), 19);
    assert_eq!(asked(&good, &ward::bound(1), 0, 40), 20);
}

#[test]
fn refuses_aims_above_two_up_to_the_largest_number() {
    for wrong in [3, 4, 255, 256, 257, 258, 1 << 16, 1 << 32, (1 << 32) + 1, 1 << 63, u64::MAX] {
        for objectives in [(wrong, 0), (0, wrong), (wrong, wrong)] {
            assert_eq!(seen(ward::image_a(), vec![open(0), ask(0, 1, 0x1f, objectives)])[1], (18, 0, 0, 0));
        }
    }
}

#[test]
fn fills_answer_buffers_of_forty_bytes_only() {
    for room in 0..=80 {
        let (lower, upper) = (ward::bound(3), ward::bound(0x1f));
        let full = Call::Ask { user: 0, session: 0, lower: lower.clone(), upper: upper.clone(), objectives: (1, 1), room };
        let short = Call::ShortAsk { user: 0, session: 0, lower, upper, room };
        let expected = if room == 40 { (0, 0, 1, 0xf) } else { (19, 0, 0, 0) };
        assert_eq!(seen(ward::image_a(), vec![open(0), full, short])[1..], [expected, expected], "{room} bytes");
    }
}

#[test]
fn refuses_null_bounds() {
    let asked = Call::ShortAsk { user: 0, session: 0, lower: vec![], upper: vec![], room: 0 };
    let run = Run { image: ward::image_a(), ledger: vec![0; LINE], calls: vec![open(0), asked], empty: Empty::Null };
    assert_eq!(play(&run)[1].reply.number, 15);
}

/// Sees what is told of an ask that came as far as the search.
fn see_search(tally: &mut Tally, policy: &Policy, call: &Call, played: &Played) {
    let (lower, upper, objectives, user) = match call {
        Call::Ask { lower, upper, objectives, user, .. } => (lower, upper, *objectives, *user),
        Call::ShortAsk { lower, upper, user, .. } => (lower, upper, SHORT_OBJECTIVES, *user),
        _ => return,
    };
    tally.see("asks");
    if played.reply.number != 0 && played.reply.number != 20 {
        return;
    }
    tally.see("searches");
    let done = played.reply.number == 0;
    if done {
        tally.see(&format!("aims {} {}", objectives.0, objectives.1));
    }
    if done && played.reply.tied > 1 {
        tally.see("ties");
    }
    if lower.iter().all(|byte| *byte == 0) {
        tally.see("empty lower bounds");
    }
    if upper.iter().all(|byte| *byte == 0) {
        tally.see("empty upper bounds");
    }
    let upper = read_permissions(upper);
    let own = &policy.authorized(user as usize);
    if own.iter().any(|role| policy.carried_by(*role).into_iter().any(|permission| !upper[permission])) {
        tally.see("roles cut");
    }
    if policy.exclusions.iter().any(|exclusion| exclusion.n == 2 && exclusion.members.intersection(own).count() > 1) {
        tally.see("limits of 2");
    }
    if let Some(answer) = &played.reply.answer {
        tally.see(if answer[..8].iter().map(|byte| byte.count_ones()).sum::<u32>() > 1 { "several roles" } else { "few roles" });
    }
}

/// Sees an explain or an obstacle.
fn see_why(tally: &mut Tally, call: &Call, played: &Played) {
    let done = played.reply.number == 0;
    match call {
        Call::Explain { .. } => tally.see(if done { "explains done" } else { "explains refused" }),
        Call::Obstacle { .. } => tally.see(if done { "obstacles done" } else { "obstacles refused" }),
        _ => {}
    }
}

/// Sees the first call of a run, if it is a short ask, by the kit alone: it has no aim to be refused for. Where the
/// same ask with an aim of 3 is told 18, it is told what comes behind that; else both are told the same.
fn see_aimless(tally: &mut Tally, run: &Run) {
    let short = &run.calls[0];
    if !matches!(short, Call::ShortAsk { .. }) {
        return;
    }
    let (told, aimed) = (made(&run.image, &run.ledger, short).0, made(&run.image, &run.ledger, &full_ask(short, (3, 1))).0);
    if aimed == 18 {
        assert!([0, 19, 20].contains(&told), "{short:?} is told {told}");
        tally.see("short asks where an aim of 3 is told 18");
    } else {
        assert_eq!(told, aimed, "{short:?}");
        tally.see("short asks refused before that");
    }
}

#[test]
fn answers_a_hundred_thousand_asks_as_the_solver_does() {
    let tally = spread("asks", 40_000, |rng, tally| {
        let size = match rng.below(50) {
            0..=9 => policy::TINY,
            10..=39 => policy::SMALL,
            40..=48 => policy::MIDDLE,
            _ => policy::WIDE,
        };
        let draft = policy::policy(rng, size);
        let (mut image, policy) = draft.built();
        let damaged = rng.pick(&[0, 0, 0, 6]);
        let mut ledger = ledger::ledger(rng, &policy, damaged);
        if rng.one_in(24) {
            ledger::misfit(rng, &mut ledger);
        }
        if rng.one_in(12) {
            image = damage::image(rng);
        }
        let calls: Vec<Call> = (0..6).map(|_| call::any(rng, &policy, &ledger)).collect();
        let run = Run { image, ledger, calls, empty: rng.pick(&[Empty::Null, Empty::Somewhere]) };
        see_aimless(tally, &run);
        for (call, played) in run.calls.iter().zip(play(&run)) {
            if matches!(call, Call::Ask { .. } | Call::ShortAsk { .. }) {
                tally.see_number(played.reply.number);
            }
            see_why(tally, call, &played);
            if (call.user() as usize) < policy.users {
                see_search(tally, &policy, call, &played);
            }
        }
    });
    tally.expect(1_000, &["short asks where an aim of 3 is told 18", "short asks refused before that"]);
    tally.expect(100_000, &["asks"]);
    tally.expect(5_000, &["0", "20", "ties", "empty lower bounds", "roles cut", "several roles"]);
    tally.expect(1_000, &["empty upper bounds", "limits of 2"]);
    tally.expect(2_500, &["explains done", "explains refused"]);
    tally.expect(1_000, &["obstacles done", "obstacles refused"]);
    tally.expect(150, &NUMBERS);
    for first in 0..3 {
        for second in 0..3 {
            tally.expect(2_000, &[&format!("aims {first} {second}")]);
        }
    }
}

/// A drawn ask as a short one.
fn short_ask(rng: &mut Rng, policy: &Policy, ledger: &[u8]) -> Call {
    match call::ask(rng, policy, ledger) {
        Call::Ask { user, session, lower, upper, room, .. } => Call::ShortAsk { user, session, lower, upper, room },
        short => short,
    }
}

/// A short ask as the full ask with these objectives.
fn full_ask(short: &Call, objectives: (u64, u64)) -> Call {
    match short.clone() {
        Call::ShortAsk { user, session, lower, upper, room } => Call::Ask { user, session, lower, upper, objectives, room },
        other => panic!("{other:?} is no short ask"),
    }
}

/// What the kit makes of a call on a copy of a ledger: the number returned, the ledger and the answer buffer.
fn made(image: &[u8], ledger: &[u8], call: &Call) -> (u64, Vec<u8>, Vec<u8>) {
    let (mut ledger, mut answer) = (ledger.to_vec(), vec![0xA5; call.room()]);
    let returned = kit::play(Empty::Somewhere, image, &mut ledger, call, &mut answer);
    (returned, ledger, answer)
}

#[test]
fn a_short_ask_is_the_ask_for_the_fewest_of_both() {
    let tally = spread("short asks", 20_000, |rng, tally| {
        let draft = if rng.one_in(8) { policy::policy(rng, policy::MIDDLE) } else { policy::overlapping(rng) };
        let (image, policy) = draft.built();
        let mut ledger = ledger::ledger(rng, &policy, 0);
        for _ in 0..8 {
            let short = short_ask(rng, &policy, &ledger);
            let of = |call: Call| {
                let run = Run { image: image.clone(), ledger: ledger.clone(), calls: vec![call], empty: Empty::Somewhere };
                play(&run).remove(0)
            };
            let [fewest, any, permissions_alone, roles_alone] =
                [(1, 1), (0, 0), (1, 0), (0, 1)].map(|objectives| of(full_ask(&short, objectives)));
            assert_eq!(of(short.clone()), fewest, "{short:?}");
            let after = made(&image, &ledger, &short);
            assert_eq!(after, made(&image, &ledger, &full_ask(&short, (1, 1))), "{short:?}");
            assert_eq!(any.reply.number, fewest.reply.number, "{short:?}");
            tally.see_number(fewest.reply.number);
            for (name, other) in [("0, 0", any), ("1, 0", permissions_alone), ("0, 1", roles_alone)] {
                if other.reply.answer != fewest.reply.answer {
                    assert_ne!(other.line, fewest.line, "{short:?}");
                    tally.see(&format!("another choice by {name}"));
                }
            }
            ledger = after.1;
        }
    });
    tally.expect(10_000, &["another choice by 0, 0"]);
    tally.expect(1_000, &["another choice by 1, 0", "another choice by 0, 1", "20"]);
}

/// A user of 16 roles, some sessions open, asked for what some of the roles carry.
fn crowded_run(rng: &mut Rng, exclusions: u64, asks: usize) -> (Run, Policy) {
    let (image, policy) = policy::crowded(rng, exclusions).built();
    let ledger = ledger::ledger(rng, &policy, 0);
    let mut calls = vec![open(0), open(0)];
    for _ in 0..asks {
        let (lower, upper) = call::bounds(rng, &policy, 0);
        let (session, objectives) = (rng.below(2), (rng.below(3), rng.below(3)));
        calls.push(Call::Ask { user: 0, session, lower, upper, objectives, room: 40 });
    }
    (Run { image, ledger, calls, empty: Empty::Somewhere }, policy)
}

#[test]
fn answers_users_of_sixteen_roles_under_thirty_two_exclusions() {
    let tally = spread("sixteen roles", 200, |rng, tally| {
        let exclusions = rng.pick(&[0, 8, 32, 32]);
        let (run, policy) = crowded_run(rng, exclusions, 4);
        assert_eq!(policy.exclusions.len() as u64, exclusions);
        for (call, played) in run.calls.iter().zip(play(&run)) {
            tally.see_number(played.reply.number);
            see_search(tally, &policy, call, &played);
        }
    });
    tally.expect(400, &["searches"]);
    tally.expect(50, &["20", "ties", "several roles"]);
}

#[test]
fn each_user_is_told_the_same_whatever_the_others_do() {
    let tally = spread("runs of several users", 3_000, |rng, tally| {
        let draft = policy::of_several(rng);
        let (image, policy) = draft.built();
        let first = ledger::ledger(rng, &policy, 8);
        let calls: Vec<Call> = (0..16).map(|_| call::any(rng, &policy, &first)).collect();
        let together = play(&Run { image, ledger: first.clone(), calls: calls.clone(), empty: Empty::Null });
        for user in 0..policy.users {
            let of_user = |call: &Call| call.user() == user as u64;
            let mut ledger = ledger::ledger(rng, &policy, 2);
            ledger[LINE * user..LINE * (user + 1)].copy_from_slice(&first[LINE * user..LINE * (user + 1)]);
            let run = Run {
                image: words::bytes(&draft.others_redrawn(rng, user as u32).words()),
                ledger,
                calls: calls.iter().filter(|call| of_user(call)).cloned().collect(),
                empty: Empty::Null,
            };
            let alone = play(&run);
            let told: Vec<Played> =
                calls.iter().zip(&together).filter(|(call, _)| of_user(call)).map(|(_, told)| told.clone()).collect();
            assert_eq!(alone, told, "user {user} of {run:?}");
            told.iter().for_each(|played| tally.see_number(played.reply.number));
            run.calls.iter().zip(&told).for_each(|(call, played)| see_why(tally, call, played));
        }
    });
    tally.expect(500, &["explains done", "explains refused"]);
    tally.expect(200, &["obstacles done", "obstacles refused"]);
    tally.expect(150, &["0", "11", "12", "13", "14", "15", "16", "17", "18", "19", "20"]);
}

/// One user of 16 roles, each permission carried by `holders` of them, on an image of all 4,096 words.
fn deep_image(rng: &mut Rng, holders: u32, exclusions: usize) -> Vec<u8> {
    let mut list = vec![words::head(64, 64, 256)];
    list.extend((0..16).map(|role| words::assignment(0, role)));
    list.extend((16..63).map(|role| words::senior(role, role + 1)));
    for permission in 0..256 {
        let from = rng.below(16) as u32;
        list.extend((0..holders).map(|next| words::grant((from + next) % 16, permission)));
    }
    for number in 0..exclusions {
        let members: Vec<u32> = (0..16).filter(|role| role % 8 != number as u32 % 8).collect();
        list.extend(words::exclusion(number as u32 % 4, members.len() as u32, &members));
    }
    while list.len() < words::MOST_WORDS - 1 {
        list.push(words::grant(63, 255));
    }
    words::bytes(&words::closed(list))
}

/// The deepest asks: all permissions, one for each role, few and many; every pair of aims.
fn deep_asks() -> Vec<Call> {
    let all = vec![0xFFu8; 32];
    let few = ward::bound(0x0101_0101_0101_0101);
    let mut calls = vec![open(0); 8];
    for lower in [&all, &few, &ward::bound(0)] {
        for objectives in (0..9).map(|pair| (pair / 3, pair % 3)) {
            calls.push(Call::Ask {
                user: 0,
                session: objectives.0,
                lower: lower.clone(),
                upper: all.clone(),
                objectives,
                room: 40,
            });
        }
        calls.push(Call::ShortAsk { user: 0, session: 7, lower: lower.clone(), upper: all.clone(), room: 40 });
    }
    calls.push(Call::Show { user: 0, session: 7, room: 40 });
    calls.extend((0..8).map(|session| Call::Explain { user: 0, session, permission: 255 }));
    calls.push(Call::Close { user: 0, session: 7 });
    calls
}

#[test]
fn the_deepest_asks_fit_a_stack_of_64_kib() {
    let mut rng = Rng::new(64);
    let from = std::time::Instant::now();
    let mut asked = 0;
    for holders in [1, 2, 5, 12] {
        for exclusions in [0, 4, 32] {
            let image = deep_image(&mut rng, holders, exclusions);
            let (mut ledger, mut answer, calls) = (vec![0u8; 64 * LINE], vec![0u8; 40], deep_asks());
            asked += calls.len();
            let run = move || {
                for call in &calls {
                    let room = call.room();
                    let returned = kit::play(Empty::Somewhere, &image, &mut ledger, call, &mut answer[..room]);
                    assert!(matches!(returned % 256, 0 | 20), "{returned} after {call:?}");
                }
                kit::check(Empty::Somewhere, &image)
            };
            let thread = std::thread::Builder::new().stack_size(64 * 1024).spawn(run).expect("a thread starts");
            assert_eq!(thread.join().expect("the calls return"), 0);
        }
    }
    say(&format!("deepest asks: {asked} calls on 64 KiB, {:.1} s", from.elapsed().as_secs_f64()));
}
