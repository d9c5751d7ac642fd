//! What users may activate through the C interface: refusal 23 in its place, lines and asks by the roles below the
//! assigned ones, then random hierarchies beside the solver.

use nutrameza_tests::compare::{check, find_loop, play, spread, Run, Tally};
use nutrameza_tests::gen::{call, hierarchy, ledger, Rng};
use nutrameza_tests::kit::{self, Empty};
use nutrameza_tests::solver::calls::Call;
use nutrameza_tests::solver::image::{judge, read};
use nutrameza_tests::solver::line::{sound, LINE};
use nutrameza_tests::{ward, words};

/// The numbers of the session rules and of the judgement that the random calls are to see.
const NUMBERS: [&str; 11] = ["0", "11", "12", "13", "14", "15", "16", "17", "18", "20", "23"];

/// A policy of 64 users, 64 roles and 64 permissions, role r granted permission r, with these senior pairs and
/// assignments.
fn image(pairs: &[(u32, u32)], assignments: &[(u32, u32)]) -> Vec<u8> {
    let mut list = vec![words::head(64, 64, 64)];
    list.extend((0..64).map(|role| words::grant(role, role)));
    list.extend(pairs.iter().map(|(senior, junior)| words::senior(*senior, *junior)));
    list.extend(assignments.iter().map(|(user, role)| words::assignment(*user, *role)));
    words::bytes(&words::closed(list))
}

/// The check's answer by both: number and extra.
fn checked(image: &[u8]) -> (u64, u64) {
    check(image, &mut Tally::default()).ok();
    let returned = kit::check(Empty::Null, image);
    (returned % 256, returned / 256)
}

/// Head over Nurse, and Surgeon beside them; the one user is assigned to Head alone.
fn ward_head() -> Vec<u8> {
    let mut list = vec![words::head(1, 3, 3), words::assignment(0, 0), words::senior(0, 1)];
    list.extend((0..3).map(|role| words::grant(role, role)));
    words::bytes(&words::closed(list))
}

fn ask(lower: u64, upper: u64, objectives: (u64, u64)) -> Call {
    Call::Ask { user: 0, session: 0, lower: ward::bound(lower), upper: ward::bound(upper), objectives, room: 40 }
}

/// What user 0's calls show under an image of one user, from this ledger.
fn seen(image: Vec<u8>, ledger: Vec<u8>, calls: Vec<Call>) -> Vec<ward::Seen> {
    let run = Run { image, ledger, calls, empty: Empty::Somewhere };
    play(&run).iter().map(|played| ward::seen(&played.reply)).collect()
}

#[test]
fn the_ward_head_takes_nurse_and_not_surgeon() {
    let calls = vec![Call::Open { user: 0 }, ask(2, 2, (1, 1)), ask(4, 7, (0, 0)), ask(0, 7, (2, 2))];
    assert_eq!(seen(ward_head(), vec![0; LINE], calls), [(0, 0, 0, 0), (0, 0, 2, 2), (20, 0, 0, 0), (0, 0, 3, 3)]);
}

#[test]
fn a_line_with_a_junior_active_is_sound_and_one_with_another_role_is_not() {
    for (roles, number) in [(1u8, 0), (2, 0), (3, 0), (4, 11), (6, 11)] {
        let mut line = vec![0u8; LINE];
        (line[0], line[8], line[16], line[24]) = (1, roles, roles, roles);
        let calls = vec![Call::Show { user: 0, session: 0, room: 40 }, Call::Explain { user: 0, session: 0, permission: 1 }];
        for answer in seen(ward_head(), line, calls) {
            assert_eq!(answer.0, number, "roles {roles}");
        }
    }
}

#[test]
fn a_junior_does_not_reach_upward() {
    let mut list = vec![words::head(1, 3, 3), words::assignment(0, 1), words::senior(0, 1), words::senior(1, 2)];
    list.extend((0..3).map(|role| words::grant(role, role)));
    let calls = vec![Call::Open { user: 0 }, ask(1, 7, (0, 0)), ask(4, 4, (0, 0))];
    let image = words::bytes(&words::closed(list));
    assert_eq!(seen(image, vec![0; LINE], calls), [(0, 0, 0, 0), (20, 0, 0, 0), (0, 0, 4, 4)]);
}

/// The ways to reach so many roles: a chain, one over the others, two chains that meet, a lattice of two ways down, and
/// assigned ones.
fn routes(count: u32) -> Vec<(&'static str, Vec<(u32, u32)>, Vec<u32>)> {
    let others = 1..count;
    let some = count.min(16);
    vec![
        ("a chain", others.clone().map(|role| (role - 1, role)).collect(), vec![0]),
        ("one over the others", others.clone().map(|role| (0, role)).collect(), vec![0]),
        (
            "two chains that meet",
            others.clone().skip(1).map(|role| (role - 2, role)).chain([(count - 2, count - 1)]).collect(),
            vec![0, 1],
        ),
        ("two ways down", others.clone().flat_map(|role| [(role - 1, role), (role.saturating_sub(2), role)]).collect(), vec![0]),
        ("assigned roles, the last over one more", (some..count).map(|role| (some - 1, role)).collect(), (0..some).collect()),
        ("assigned roles over each other", others.map(|role| (role - 1, role)).collect(), (0..some).collect()),
    ]
}

#[test]
fn accepts_sixteen_roles_and_refuses_seventeen_by_every_route() {
    for (count, number) in [(15, 0), (16, 0), (17, 23), (18, 23), (64, 23)] {
        for (route, pairs, roles) in routes(count) {
            for user in [0, 5, 63] {
                let assignments: Vec<(u32, u32)> = roles.iter().map(|role| (user, *role)).collect();
                let extra = if number == 0 { 0 } else { u64::from(user) };
                assert_eq!(checked(&image(&pairs, &assignments)), (number, extra), "{count} roles, {route}, user {user}");
            }
        }
    }
}

#[test]
fn a_wide_role_that_nobody_has_is_accepted() {
    let pairs: Vec<(u32, u32)> = (1..64).map(|role| (0, role)).collect();
    assert_eq!(checked(&image(&pairs, &[(0, 1), (63, 63)])), (0, 0));
}

#[test]
fn names_the_lowest_of_several_users() {
    let pairs: Vec<(u32, u32)> = (1..17).map(|role| (0, role)).collect();
    assert_eq!(checked(&image(&pairs, &[(63, 0), (41, 0), (40, 1), (52, 0)])), (23, 41));
}

#[test]
fn a_loop_comes_before_reach_and_the_loop_call_does_not_look_at_reach() {
    let wide: Vec<(u32, u32)> = (1..17).map(|role| (0, role)).collect();
    let looped: Vec<(u32, u32)> = wide.iter().copied().chain([(30, 31), (31, 30)]).collect();
    assert_eq!(checked(&image(&looped, &[(7, 0)])), (22, 30));
    assert_eq!(find_loop(&image(&wide, &[(7, 0)]), 64, Empty::Null, 3).number, 20);
    assert_eq!(find_loop(&image(&looped, &[(7, 0)]), 64, Empty::Null, 3).number, 0);
}

#[test]
fn every_call_refuses_by_reach_before_it_looks_at_the_ledger() {
    let pairs: Vec<(u32, u32)> = (1..17).map(|role| (0, role)).collect();
    let calls = vec![
        Call::Open { user: 99 },
        Call::Close { user: 99, session: 9 },
        Call::Show { user: 99, session: 9, room: 3 },
        Call::Ask { user: 99, session: 9, lower: vec![], upper: vec![], objectives: (9, 9), room: 3 },
        Call::ShortAsk { user: 99, session: 9, lower: vec![], upper: vec![], room: 3 },
        Call::Explain { user: 99, session: 9, permission: 999 },
    ];
    let run = Run { image: image(&pairs, &[(50, 0)]), ledger: vec![0xA5; 7], calls, empty: Empty::Null };
    for played in play(&run) {
        assert_eq!((played.reply.number, played.reply.extra), (23, 50));
    }
}

#[test]
fn a_user_of_one_role_over_fifteen_may_have_all_of_them() {
    let pairs: Vec<(u32, u32)> = (1..16).map(|role| (0, role)).collect();
    let mut list = vec![words::head(1, 64, 64), words::assignment(0, 0)];
    list.extend(pairs.iter().map(|(senior, junior)| words::senior(*senior, *junior)));
    list.extend((0..64).map(|role| words::grant(role, role)));
    let image = words::bytes(&words::closed(list));
    let calls =
        vec![Call::Open { user: 0 }, ask(0, u64::MAX, (2, 2)), ask(0x8000, 0x8000, (1, 1)), ask(0x10000, u64::MAX, (0, 0))];
    let all = (0, 0, 0xFFFF, 0xFFFF);
    assert_eq!(seen(image, vec![0; LINE], calls), [(0, 0, 0, 0), all, (0, 0, 0x8000, 0x8000), (20, 0, 0, 0)]);
}

/// A ledger in which some lines have a role active that is authorized and not assigned, and some one that is not
/// authorized.
fn told_apart(rng: &mut Rng, image: &[u8], ledger: &mut [u8], tally: &mut Tally) {
    let Ok(policy) = judge(image) else {
        return;
    };
    for (user, line) in ledger.chunks_exact_mut(LINE).enumerate() {
        let own = policy.authorized(user);
        let below: Vec<usize> = own.iter().copied().filter(|role| !policy.assigned[user].contains(role)).collect();
        let beyond: Vec<usize> = (0..policy.roles).filter(|role| !own.contains(role)).collect();
        let from = if rng.one_in(4) { &beyond } else { &below };
        if from.is_empty() || rng.one_in(4) {
            continue;
        }
        let role = rng.pick(from);
        line.fill(0);
        line[0] = 1;
        for start in [8, 16, 24] {
            line[start + role / 8] |= 1 << (role % 8);
        }
        tally.see(match (sound(&policy, user, line), below.contains(&role)) {
            (true, true) => "sound lines that assigned roles alone would refuse",
            (false, false) => "lines with a role out of reach",
            _ => "lines that an exclusion refuses",
        });
    }
}

#[test]
fn answers_calls_under_hierarchies_as_the_solver_does() {
    let tally = spread("reach", 1_500, |rng, tally| {
        let mut draft = hierarchy::reaching(rng);
        if !rng.one_in(4) {
            draft.fit(rng);
        }
        draft.reaches().iter().for_each(|count| tally.see(&format!("users who reach {count}")));
        let image = words::bytes(&draft.words());
        check(&image, tally).ok();
        let policy = read(&image).expect("only the reach may be wrong with it");
        for user in 0..policy.users {
            tally.see(if policy.authorized(user) == policy.assigned[user] { "assigned alone" } else { "more than assigned" });
        }
        let mut ledger = ledger::ledger(rng, &policy, 8);
        if rng.one_in(2) {
            told_apart(rng, &image, &mut ledger, tally);
        }
        let calls: Vec<Call> = (0..3).map(|_| call::any(rng, &policy, &ledger)).collect();
        for played in play(&Run { image, ledger, calls, empty: Empty::Null }) {
            tally.see_number(played.reply.number);
        }
    });
    tally.expect(100, &["users who reach 15", "users who reach 16", "users who reach 17", "more than assigned"]);
    tally.expect(200, &["sound lines that assigned roles alone would refuse", "lines with a role out of reach"]);
    tally.expect(20, &NUMBERS);
    assert!(tally.count("more than assigned") > tally.count("assigned alone"));
}
