//! Loops of seniority through the C interface: refusal 22 in its place, the loop call's chain byte by byte, then
//! hierarchies by the ten thousand beside the solver and beside all shortest chains, listed.

use nutrameza_tests::compare::{check, find_loop, play, spread, Run, Tally};
use nutrameza_tests::gen::{damage, hierarchy, Rng};
use nutrameza_tests::kit::{self, Empty};
use nutrameza_tests::solver::calls::Call;
use nutrameza_tests::solver::image::{read, Judged};
use nutrameza_tests::solver::line::LINE;
use nutrameza_tests::solver::policy::Policy;
use nutrameza_tests::{ward, words};

/// The numbers that the loop call can give.
const NUMBERS: [&str; 11] = ["0", "1", "2", "3", "4", "5", "6", "7", "8", "19", "20"];

/// The words of a policy of one user, so many roles and these senior pairs.
fn list(roles: u32, pairs: &[(u32, u32)]) -> Vec<u32> {
    let mut list = vec![words::head(1, roles, 4), words::assignment(0, 0), words::grant(roles - 1, 3)];
    list.extend(pairs.iter().map(|(senior, junior)| words::senior(*senior, *junior)));
    words::closed(list)
}

fn image(roles: u32, pairs: &[(u32, u32)]) -> Vec<u8> {
    words::bytes(&list(roles, pairs))
}

/// The check's answer by both: number and extra.
fn checked(image: &[u8]) -> (u64, u64) {
    check(image, &mut Tally::default()).ok();
    let returned = kit::check(Empty::Null, image);
    (returned % 256, returned / 256)
}

/// The chain that the loop call fills in, as long as its extra says; all after it is zero.
fn chain(image: &[u8]) -> Vec<u8> {
    let found = find_loop(image, 64, Empty::Somewhere, 0xA5);
    assert_eq!(found.number, 0);
    let chain = found.chain.expect("a done call fills the chain");
    let (chain, rest) = chain.split_at(found.extra as usize);
    assert!(rest.iter().all(|byte| *byte == 0));
    chain.to_vec()
}

/// The senior pairs of a loop through these roles in this order.
fn ring(roles: &[u32]) -> Vec<(u32, u32)> {
    roles.iter().copied().zip(roles.iter().copied().cycle().skip(1)).collect()
}

#[test]
fn refuses_doctor_over_consultant_over_doctor() {
    let image = image(2, &[(0, 1), (1, 0)]);
    assert_eq!(checked(&image), (22, 0));
    assert_eq!(chain(&image), [1, 0]);
}

#[test]
fn accepts_a_hierarchy_in_which_two_ways_lead_down() {
    let image = image(4, &[(0, 1), (0, 2), (1, 3), (2, 3), (0, 3)]);
    assert_eq!(checked(&image), (0, 0));
    assert_eq!(find_loop(&image, 64, Empty::Null, 1).number, 20);
}

#[test]
fn names_the_lowest_role_on_a_loop_and_not_one_above_or_below() {
    let (above, below) = (image(5, &[(0, 2), (0, 4), (2, 4), (4, 2)]), image(5, &[(2, 0), (4, 1), (2, 4), (4, 2)]));
    for image in [above, below] {
        assert_eq!(checked(&image), (22, 2));
        assert_eq!(chain(&image), [4, 2]);
    }
}

#[test]
fn names_the_lowest_of_several_loops() {
    let image = image(64, &[(62, 63), (63, 62), (40, 9), (9, 40), (30, 31), (31, 10), (10, 30)]);
    assert_eq!(checked(&image), (22, 9));
    assert_eq!(chain(&image), [40, 9]);
}

#[test]
fn finds_loops_of_two_up_to_sixty_four_roles() {
    let mut rng = Rng::new(22);
    for size in 2..=64 {
        let mut roles: Vec<u32> = (0..64).collect();
        rng.shuffle(&mut roles);
        roles.truncate(size);
        let lowest = *roles.iter().min().expect("there are roles");
        let at = roles.iter().position(|role| *role == lowest).expect("it is one of them");
        roles.rotate_left(at + 1);
        let image = image(64, &ring(&roles));
        assert_eq!(checked(&image), (22, lowest.into()), "{roles:?}");
        assert_eq!(chain(&image), roles.iter().map(|role| *role as u8).collect::<Vec<u8>>());
    }
}

#[test]
fn a_shorter_loop_comes_before_one_of_lower_roles() {
    let image = image(10, &[(0, 1), (1, 2), (2, 0), (0, 9), (9, 0)]);
    assert_eq!(chain(&image), [9, 0]);
}

#[test]
fn of_shortest_chains_the_lowest_role_by_role_is_given() {
    assert_eq!(chain(&image(7, &[(0, 2), (2, 6), (6, 0), (0, 3), (3, 1), (1, 0)])), [2, 6, 0]);
    assert_eq!(chain(&image(7, &[(0, 2), (2, 6), (6, 0), (2, 5), (5, 0), (0, 4), (4, 3), (3, 0)])), [2, 5, 0]);
    let all: Vec<(u32, u32)> =
        (0..64).flat_map(|senior| (0..64).map(move |junior| (senior, junior))).filter(|(one, other)| one != other).collect();
    assert_eq!(chain(&image(64, &all)), [1, 0]);
}

#[test]
fn a_role_that_leads_nowhere_back_is_not_taken_though_it_is_lower() {
    let image = image(9, &[(2, 3), (3, 4), (4, 5), (2, 7), (7, 8), (8, 2)]);
    assert_eq!(chain(&image), [7, 8, 2]);
}

/// Words that the check refuses by 1 to 8, each with a loop in it.
fn refused_with_a_loop() -> Vec<(u64, Vec<u8>)> {
    let pairs = ring(&[3, 1, 2]);
    let looped = list(20, &pairs);
    let with = |at: usize, more: &[u32]| {
        let mut list = looped.clone();
        list.splice(at..at, more.iter().copied());
        words::rebalance(&mut list);
        words::bytes(&list)
    };
    let crowd: Vec<u32> = (0..17).map(|role| words::assignment(0, role)).collect();
    let mut cases = vec![(1, words::bytes(&looped)[..4 * looped.len() - 1].to_vec())];
    let mut head = looped.clone();
    head[0] += 1;
    words::rebalance(&mut head);
    cases.push((2, words::bytes(&head)));
    for at in [1, looped.len() - 1] {
        cases.push((3, with(at, &[8 << 28])));
        cases.push((4, with(at, &[words::senior(0, 1) + 1])));
        cases.push((5, with(at, &[words::senior(0, 20)])));
        cases.push((6, with(at, &[words::senior(5, 5)])));
        cases.push((7, with(at, &crowd)));
    }
    let mut unbalanced = looped.clone();
    unbalanced[looped.len() - 1] ^= 1 << 27;
    cases.push((8, words::bytes(&unbalanced)));
    cases
}

/// Calls of each kind by a user in a session, with answer buffers of this length.
fn calls(user: u64, session: u64, room: usize) -> Vec<Call> {
    let bound = ward::bound(1);
    vec![
        Call::Open { user },
        Call::Close { user, session },
        Call::Show { user, session, room },
        Call::Ask { user, session, lower: bound.clone(), upper: bound.clone(), objectives: (3, 3), room },
        Call::ShortAsk { user, session, lower: bound.clone(), upper: bound[1..].to_vec(), room },
        Call::Explain { user, session, permission: 4 },
    ]
}

/// The numbers and extras of calls of each kind, each on a ledger of this length.
fn answers(image: &[u8], length: usize, calls: Vec<Call>) -> Vec<(u64, u64)> {
    let run = Run { image: image.to_vec(), ledger: vec![0xFF; length], calls, empty: Empty::Null };
    play(&run).iter().map(|played| (played.reply.number, played.reply.extra)).collect()
}

#[test]
fn the_refusals_1_to_8_come_before_a_loop() {
    let mut numbers = Vec::new();
    for (number, image) in refused_with_a_loop() {
        assert_eq!(checked(&image).0, number);
        for room in [0, 63, 64, 65] {
            assert_eq!(find_loop(&image, room, Empty::Null, 0x77).number, number);
        }
        for length in [0, LINE - 1, LINE] {
            assert!(answers(&image, length, calls(0, 0, 40)).iter().all(|answer| answer.0 == number), "{number}");
        }
        numbers.push(number);
    }
    numbers.sort();
    numbers.dedup();
    assert_eq!(numbers, [1, 2, 3, 4, 5, 6, 7, 8]);
}

#[test]
fn every_call_refuses_a_loop_before_ledger_person_line_session_and_all_that_follows() {
    let image = image(6, &[(0, 5), (5, 3), (3, 5)]);
    for length in [0, 1, 80, LINE - 1, LINE, LINE + 1, 2 * LINE] {
        for (user, session, room) in [(0, 0, 40), (0, 9, 3), (7, 0, 40), (u64::MAX, u64::MAX, 0)] {
            assert_eq!(answers(&image, length, calls(user, session, room)), [(22, 3); 6], "{length} bytes");
        }
    }
    assert_eq!(checked(&image), (22, 3));
}

#[test]
fn without_the_loop_the_same_calls_come_to_the_later_refusals() {
    let image = image(6, &[(0, 5), (5, 3)]);
    assert_eq!(answers(&image, LINE - 1, calls(0, 0, 40)), [(9, 0); 6]);
    assert_eq!(answers(&image, LINE, calls(7, 0, 40)), [(10, 0); 6]);
    assert_eq!(answers(&image, LINE, calls(0, 0, 40)), [(11, 0); 6]);
}

#[test]
fn chain_buffers_of_0_to_80_bytes_stay_as_they_were_on_every_refusal() {
    let mut images = refused_with_a_loop();
    images.push((20, image(3, &[(0, 1), (1, 2)])));
    images.push((20, image(3, &[])));
    images.push((0, image(3, &[(0, 1), (1, 0)])));
    for (number, image) in images {
        for room in 0..=80 {
            for empty in [Empty::Null, Empty::Somewhere] {
                let found = find_loop(&image, room, empty, room as u8 ^ 0x3C);
                let expected = if number % 20 == 0 && room != 64 { 19 } else { number };
                assert_eq!(found.number, expected, "{room} bytes");
                assert_eq!(found.chain.is_some(), expected == 0);
            }
        }
    }
}

#[test]
fn the_order_of_the_words_and_repeats_do_not_matter() {
    let mut rng = Rng::new(8);
    let pairs = [ring(&[4, 9, 6]), ring(&[4, 7, 6]), ring(&[9, 2])].concat();
    let first = image(12, &pairs);
    for _ in 0..50 {
        let mut pairs = [pairs.clone(), vec![rng.pick(&pairs), rng.pick(&pairs)]].concat();
        rng.shuffle(&mut pairs);
        let image = image(12, &pairs);
        assert_eq!(checked(&image), checked(&first));
        assert_eq!(chain(&image), chain(&first));
    }
    assert_eq!(chain(&first), [9, 2]);
}

/// All shortest chains from a role down and back to it, the first role left out; none if more than 2,000 are begun.
fn all_shortest(policy: &Policy, role: usize) -> Option<Vec<Vec<u8>>> {
    let mut begun: Vec<Vec<u8>> = vec![Vec::new()];
    while begun.len() <= 2_000 {
        let mut longer = Vec::new();
        for chain in &begun {
            let last = chain.last().map_or(role, |last| (*last).into());
            longer.extend(policy.juniors[last].iter().map(|junior| [chain.as_slice(), &[*junior as u8]].concat()));
        }
        let (back, open): (Vec<Vec<u8>>, Vec<Vec<u8>>) = longer.into_iter().partition(|chain| chain.ends_with(&[role as u8]));
        if !back.is_empty() {
            return Some(back);
        }
        begun = open;
    }
    None
}

/// Sees what loops a policy has: none, one alone, several apart, several that share roles, a lower role above one.
fn see_loops(tally: &mut Tally, policy: &Policy) {
    let looped: Vec<usize> = (0..policy.roles).filter(|role| policy.on_loop(*role)).collect();
    let Some(lowest) = looped.first() else {
        return tally.see("no loop");
    };
    let together = |one: usize, other: usize| policy.reached(one).contains(&other) && policy.reached(other).contains(&one);
    let apart = looped.iter().any(|role| !together(*lowest, *role));
    let words_inside: usize =
        looped.iter().map(|role| policy.juniors[*role].iter().filter(|junior| together(*role, **junior)).count()).sum();
    let shared = words_inside > looped.len();
    for (what, seen) in [("one loop", !apart && !shared), ("loops apart", apart), ("loops that share roles", shared)] {
        if seen {
            tally.see(what);
        }
    }
    if (0..*lowest).any(|role| policy.reached(role).contains(lowest)) {
        tally.see("a lower role above a loop");
    }
}

/// The chain of a done loop call is one of senior words, back to the role and not before, and the lowest of all
/// shortest ones.
fn hold_chain(tally: &mut Tally, policy: &Policy, role: usize, chain: &[u8]) {
    let mut senior = role;
    for (place, junior) in chain.iter().enumerate() {
        assert!(policy.juniors[senior].contains(&(*junior).into()), "{junior} does not stand below {senior}");
        assert_eq!(usize::from(*junior) == role, place + 1 == chain.len());
        senior = (*junior).into();
    }
    tally.see(match chain.len() {
        2 => "chains of 2",
        3..=8 => "chains of 3 to 8",
        _ => "longer chains",
    });
    match all_shortest(policy, role) {
        None => tally.see("too many to list"),
        Some(all) => {
            tally.see(if all.len() > 1 { "several shortest" } else { "one shortest" });
            assert_eq!(all.iter().min().map(Vec::as_slice), Some(chain));
        }
    }
}

#[test]
fn finds_the_loops_of_forty_thousand_hierarchies_as_the_solver_and_the_lists_do() {
    let tally = spread("loops", 40_000, |rng, tally| {
        let image = words::bytes(&hierarchy::hierarchy(rng).words());
        let policy = read(&image).expect("only a loop may be wrong with it");
        see_loops(tally, &policy);
        let judged: Judged = check(&image, tally);
        let empty = rng.pick(&[Empty::Null, Empty::Somewhere]);
        let found = find_loop(&image, 64, empty, rng.draw() as u8);
        match judged {
            Ok(_) => assert_eq!(found.number, 20),
            Err(refused) => {
                let chain = found.chain.expect("a loop has a chain");
                hold_chain(tally, &policy, refused.extra, &chain[..found.extra as usize]);
            }
        }
    });
    tally.expect(4_000, &["0", "22", "no loop", "one loop", "loops that share roles", "one shortest", "several shortest"]);
    tally.expect(1_000, &["loops apart", "chains of 2", "chains of 3 to 8", "longer chains"]);
    tally.expect(500, &["a lower role above a loop"]);
}

#[test]
fn the_loop_call_answers_damaged_images_as_the_solver_does() {
    let tally = spread("loop calls", 60_000, |rng, tally| {
        let image = damage::image(rng);
        let room = if rng.one_in(12) { rng.place(129) } else { 64 };
        tally.see_number(find_loop(&image, room, rng.pick(&[Empty::Null, Empty::Somewhere]), rng.draw() as u8).number);
    });
    tally.expect(500, &NUMBERS);
    assert_eq!(tally.count("22"), 0);
}

#[test]
fn the_longest_loop_among_the_most_words_fits_a_stack_of_64_kib() {
    let roles: Vec<u32> = (0..64).collect();
    let mut list = list(64, &ring(&roles));
    let filler = vec![words::senior(63, 0); words::MOST_WORDS - list.len()];
    list.splice(3..3, filler);
    words::rebalance(&mut list);
    let image = words::bytes(&list);
    let run = move || {
        let mut chain = [0u8; 64];
        let returned = kit::find_loop(Empty::Somewhere, &image, &mut chain);
        (returned, chain, kit::check(Empty::Somewhere, &image))
    };
    let thread = std::thread::Builder::new().stack_size(64 * 1024).spawn(run).expect("a thread starts");
    let (returned, chain, checked) = thread.join().expect("the calls return");
    assert_eq!((returned, checked), (256 * 64, 22));
    assert_eq!(chain.to_vec(), (1..64).chain([0]).collect::<Vec<u8>>());
}
