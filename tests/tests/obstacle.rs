//! Obstacle through the C interface: what stands in the way of an ask by each kind, the order of kinds, permissions and
//! exclusions, each refusal in its order; then obstacles by the hundred thousand beside the solver, beside asks with
//! the same bounds, on images whose entries are moved about and on tidy images.

use nutrameza_tests::compare::{alike, leaves, play, refused_images, spread, unmoved_by, Left, Played, Run, Tally};
use nutrameza_tests::gen::order::{moved, WAYS};
use nutrameza_tests::gen::policy::{self, Draft};
use nutrameza_tests::gen::{call, damage, ledger, Rng};
use nutrameza_tests::kit::{self, Empty};
use nutrameza_tests::solver::calls::{barred, Call};
use nutrameza_tests::solver::image::judge;
use nutrameza_tests::solver::line::{Line, LINE};
use nutrameza_tests::solver::policy::{Exclusion, Policy, Roles};
use nutrameza_tests::solver::tidy;
use nutrameza_tests::{ward, words};

/// The numbers that an obstacle can give.
const NUMBERS: [&str; 21] =
    ["0", "1", "2", "3", "4", "5", "6", "7", "8", "22", "23", "9", "10", "11", "12", "13", "15", "16", "17", "19", "20"];

/// What an obstacle tells: its kind, what it is about, both sets as numbers; or the refusal's number and extra.
#[derive(Clone, Copy, Debug, PartialEq, Eq)]
enum Told {
    Way(u64, u64, u64, u64),
    Refused(u64, u64),
}

use Told::{Refused, Way};

/// Nothing stands in the way.
const CLEAR: Told = Refused(20, 0);

/// An exclusion of kind and n as what an obstacle is about.
fn rule(kind: u64, n: u64) -> u64 {
    kind + 4 * n
}

/// Two sets of a filled buffer.
fn sets(bytes: &[u8]) -> (u64, u64) {
    let number = |half: &[u8]| half.iter().rev().fold(0, |sum, byte| sum * 256 + u64::from(*byte));
    (number(&bytes[..8]), number(&bytes[8..]))
}

fn told_by(played: &Played) -> Told {
    match &played.reply.answer {
        Some(bytes) => {
            let (first, second) = sets(bytes);
            Way(played.reply.extra % 8, played.reply.extra / 8, first, second)
        }
        None => Refused(played.reply.number, played.reply.extra),
    }
}

/// What one call tells on a ledger, by both.
fn told(image: &[u8], ledger: &[u8], call: Call) -> Told {
    let run = Run { image: image.to_vec(), ledger: ledger.to_vec(), calls: vec![call], empty: Empty::Somewhere };
    told_by(&play(&run)[0])
}

/// The obstacle of user 0 to an ask for permissions below 64.
fn obstacle(session: u64, lower: u64, upper: u64) -> Call {
    Call::Obstacle { user: 0, session, lower: ward::bound(lower), upper: ward::bound(upper), room: 16 }
}

/// Users who all have the roles of `own`; each role of `rows` carries the permissions listed, of 64; then these
/// entries.
fn image_of(users: u32, own: &[u32], rows: &[&[u32]], more: &[Vec<u32>]) -> Vec<u8> {
    let mut list = vec![words::head(users, rows.len() as u32, 64)];
    for user in 0..users {
        list.extend(own.iter().map(|role| words::assignment(user, *role)));
    }
    for (role, row) in (0..).zip(rows) {
        list.extend(row.iter().map(|permission| words::grant(role, *permission)));
    }
    list.extend(more.concat());
    words::bytes(&words::closed(list))
}

/// The same for one user who has all of the roles.
fn image(rows: &[&[u32]], more: &[Vec<u32>]) -> Vec<u8> {
    let own: Vec<u32> = (0..rows.len() as u32).collect();
    image_of(1, &own, rows, more)
}

/// A line whose first sessions are open, each with its active roles and those that it has in its past beside them; the
/// others are closed. The last set joins the user's past alone.
fn line(sessions: &[(&[usize], &[usize])], past: &[usize]) -> Vec<u8> {
    let mut line = Line::read(&[0; LINE]);
    for (session, (active, history)) in line.sessions.iter_mut().zip(sessions) {
        session.open = true;
        for role in *active {
            session.active[*role] = true;
        }
        for role in active.iter().chain(*history) {
            session.history[*role] = true;
            line.history[*role] = true;
        }
    }
    past.iter().for_each(|role| line.history[*role] = true);
    let mut bytes = vec![0; LINE];
    line.write(&mut bytes);
    bytes
}

/// One open session in which nothing was ever active.
fn fresh() -> Vec<u8> {
    line(&[(&[], &[])], &[])
}

#[test]
fn answers_every_listed_example_as_the_change_request_says() {
    for case in ward::obstacle_cases() {
        let run = Run { image: case.image, ledger: case.ledger, calls: case.calls, empty: Empty::Somewhere };
        let seen: Vec<ward::Seen> = play(&run).iter().map(|played| ward::seen(&played.reply)).collect();
        assert_eq!(seen, case.expected, "{}", case.name);
    }
}

#[test]
fn of_the_ward_names_the_exclusion_and_the_doctor_of_the_other_window() {
    let image = ward::image_a();
    let two = line(&[(&[0], &[]), (&[], &[])], &[]);
    assert_eq!(told(&image, &two, obstacle(1, 0x12, 0x1f)), Way(4, rule(1, 2), 1, 3));
    assert_eq!(told(&image, &two, obstacle(0, 0x12, 0x1f)), CLEAR);
    assert_eq!(told(&image, &two, obstacle(1, 0x3, 0x1f)), CLEAR);
    assert_eq!(told(&image, &two, obstacle(0, 0x11, 0x1f)), Way(4, rule(1, 2), 0, 3));
    assert_eq!(told(&image, &two, obstacle(0, 0x3, 0x3)), Way(2, 0, 1, 0));
    assert_eq!(told(&image, &two, obstacle(1, 0, 0)), CLEAR);
}

#[test]
fn own_names_the_lowest_permission_that_the_users_roles_lack_and_every_role_of_the_policy_that_carries_it() {
    // role 3 stands over role 2, which holds the grant; the user has roles 0 and 1
    let seniors = vec![words::senior(3, 2)];
    let image = image_of(1, &[0, 1], &[&[0], &[1], &[5, 9], &[]], &[seniors]);
    assert_eq!(told(&image, &fresh(), obstacle(0, 1 << 5 | 1 << 9 | 3, u64::MAX)), Way(1, 5, 0b1100, 0));
    assert_eq!(told(&image, &fresh(), obstacle(0, 1 << 9 | 1, u64::MAX)), Way(1, 9, 0b1100, 0));
    // nobody carries it
    assert_eq!(told(&image, &fresh(), obstacle(0, 1 << 40 | 1, u64::MAX)), Way(1, 40, 0, 0));
}

#[test]
fn own_counts_the_roles_below_an_assigned_one_as_the_users() {
    let seniors = vec![words::senior(0, 1), words::senior(1, 2)];
    let image = image_of(1, &[0], &[&[], &[], &[4], &[4, 5]], &[seniors]);
    assert_eq!(told(&image, &fresh(), obstacle(0, 1 << 4, u64::MAX)), CLEAR);
    assert_eq!(told(&image, &fresh(), obstacle(0, 1 << 4 | 1 << 5, u64::MAX)), Way(1, 5, 0b1000, 0));
}

#[test]
fn own_looks_at_the_user_whatever_the_upper_bound_is() {
    // role 0 carries 0 and, outside the upper bound, 1: that is kind 2; nobody's role carries 2: that is kind 1
    let image = image_of(1, &[0], &[&[0, 1], &[2]], &[]);
    assert_eq!(told(&image, &fresh(), obstacle(0, 0b001, 0b101)), Way(2, 0, 1, 0));
    assert_eq!(told(&image, &fresh(), obstacle(0, 0b101, 0b101)), Way(1, 2, 0b10, 0));
}

#[test]
fn upper_names_the_users_roles_that_carry_the_permission_and_no_others() {
    // roles 0 and 1 carry 3 and each something more; role 2 carries 3 alone and is not the user's
    let image = image_of(1, &[0, 1, 3], &[&[3, 4], &[3, 5], &[3], &[6]], &[]);
    assert_eq!(told(&image, &fresh(), obstacle(0, 1 << 3 | 1 << 6, 1 << 3 | 1 << 6)), Way(2, 3, 0b0011, 0));
    assert_eq!(told(&image, &fresh(), obstacle(0, 1 << 3, 1 << 3 | 1 << 5)), CLEAR);
}

#[test]
fn upper_names_the_lowest_such_permission() {
    let image = image(&[&[7, 20], &[9, 21], &[2]], &[]);
    let upper = 1 << 2 | 1 << 7 | 1 << 9;
    assert_eq!(told(&image, &fresh(), obstacle(0, upper, upper)), Way(2, 7, 0b001, 0));
    assert_eq!(told(&image, &fresh(), obstacle(0, upper, upper | 1 << 20)), Way(2, 9, 0b010, 0));
    assert_eq!(told(&image, &fresh(), obstacle(0, upper, upper | 3 << 20)), CLEAR);
}

/// A ledger of two users: the other's first window holds these roles, the user's is open with nothing active.
fn beside(held: &[usize]) -> Vec<u8> {
    [fresh(), line(&[(held, &[])], &[])].concat()
}

#[test]
fn limit_names_the_roles_within_the_upper_bound_that_are_all_barred() {
    // permission 3: role 0 barred, role 1 barred, role 2 free but carrying more than the upper bound
    let more = vec![words::limit(0, 2), words::limit(1, 2)];
    let image = image_of(2, &[0, 1, 2], &[&[3], &[3], &[3, 8]], &[more]);
    assert_eq!(told(&image, &beside(&[0, 1]), obstacle(0, 1 << 3, 1 << 3)), Way(3, 3, 0b011, 0));
    assert_eq!(told(&image, &beside(&[0, 1]), obstacle(0, 1 << 3, 1 << 3 | 1 << 8)), CLEAR);
    assert_eq!(told(&image, &beside(&[0]), obstacle(0, 1 << 3, 1 << 3)), CLEAR);
}

#[test]
fn limit_names_the_lowest_such_permission_and_leaves_barred_roles_that_carry_too_much_to_upper() {
    let more = vec![words::limit(0, 2), words::limit(1, 2), words::limit(2, 2)];
    let image = image_of(2, &[0, 1, 2], &[&[6], &[4], &[4, 9]], &[more]);
    let (both, all) = (1 << 4 | 1 << 6, [0, 1, 2]);
    assert_eq!(told(&image, &beside(&all), obstacle(0, both, both)), Way(3, 4, 0b010, 0));
    assert_eq!(told(&image, &beside(&all), obstacle(0, both, both | 1 << 9)), Way(3, 4, 0b110, 0));
    assert_eq!(told(&image, &beside(&[0]), obstacle(0, both, both)), Way(3, 6, 0b001, 0));
    let only_wide = image_of(2, &[2], &[&[], &[], &[4, 9]], &[vec![words::limit(2, 2)]]);
    assert_eq!(told(&only_wide, &beside(&[2]), obstacle(0, 1 << 4, 1 << 4)), Way(2, 4, 0b100, 0));
    assert_eq!(told(&only_wide, &beside(&[2]), obstacle(0, 1 << 4, 1 << 4 | 1 << 9)), Way(3, 4, 0b100, 0));
}

#[test]
fn limit_counts_other_windows_of_the_user_and_not_the_asked_one() {
    let image = image(&[&[0]], &[vec![words::limit(0, 3)]]);
    let holding = |count: usize| line(&vec![(&[0usize][..], &[][..]); count], &[]);
    assert_eq!(told(&image, &holding(2), obstacle(0, 1, 1)), CLEAR);
    for asked in 0..3 {
        assert_eq!(told(&image, &holding(3), obstacle(asked, 1, 1)), Way(3, 0, 1, 0));
    }
}

#[test]
fn the_kinds_are_tried_in_their_order_each_over_all_permissions() {
    // permission 4: nobody of the user's; 3: more than the upper bound; 2: barred; 0 and 1: excluding each other
    let more = [vec![words::limit(2, 2)], words::exclusion(0, 2, &[0, 1])];
    let image = image_of(2, &[0, 1, 2, 3], &[&[0], &[1], &[2], &[3, 8], &[4]], &more);
    let ledger = beside(&[2]);
    let upper = 0b11111;
    assert_eq!(told(&image, &ledger, obstacle(0, 0b11111, upper)), Way(1, 4, 0b10000, 0));
    assert_eq!(told(&image, &ledger, obstacle(0, 0b01111, upper)), Way(2, 3, 0b01000, 0));
    assert_eq!(told(&image, &ledger, obstacle(0, 0b00111, upper)), Way(3, 2, 0b00100, 0));
    assert_eq!(told(&image, &ledger, obstacle(0, 0b00011, upper)), Way(4, rule(0, 2), 0, 0b00011));
    assert_eq!(told(&image, &ledger, obstacle(0, 0b00001, upper)), CLEAR);
}

#[test]
fn an_exclusion_counts_by_its_kind_what_stands_already() {
    // window 0 holds role 0 and had role 1 before; window 1 holds role 2; role 3 was active in a window that is closed
    let ledger = line(&[(&[0], &[1]), (&[2], &[])], &[3]);
    let rows: [&[u32]; 5] = [&[0], &[1], &[2], &[3], &[4]];
    let members = [0, 1, 2, 3, 4];
    for (kind, n, counted) in [(0, 2, 0), (1, 3, 0b00100), (2, 3, 0b00011), (3, 5, 0b01111)] {
        let image = image(&rows, &[words::exclusion(kind, n, &members)]);
        let lower = if kind == 0 || kind == 1 { 0b11001 } else { 0b10000 };
        assert_eq!(told(&image, &ledger, obstacle(0, lower, u64::MAX)), Way(4, rule(kind.into(), n.into()), counted, 0b11111));
    }
}

#[test]
fn a_closed_windows_roles_are_counted_over_the_users_past_alone() {
    let ledger = line(&[(&[], &[])], &[0]);
    for (kind, expected) in [(0, CLEAR), (1, CLEAR), (2, CLEAR), (3, Way(4, rule(3, 2), 1, 3))] {
        let image = image(&[&[0], &[1]], &[words::exclusion(kind, 2, &[0, 1])]);
        assert_eq!(told(&image, &ledger, obstacle(0, 2, 3)), expected, "kind {kind}");
    }
}

#[test]
fn the_replaced_set_counts_through_the_windows_past_alone() {
    let ledger = line(&[(&[0], &[])], &[]);
    for (kind, expected) in [(0, CLEAR), (1, CLEAR), (2, Way(4, rule(2, 2), 1, 3)), (3, Way(4, rule(3, 2), 1, 3))] {
        let image = image(&[&[0], &[1]], &[words::exclusion(kind, 2, &[0, 1])]);
        assert_eq!(told(&image, &ledger, obstacle(0, 2, 3)), expected, "kind {kind}");
    }
}

#[test]
fn a_member_of_two_windows_is_counted_once() {
    let ledger = line(&[(&[0], &[]), (&[0], &[]), (&[], &[])], &[]);
    let image = image(&[&[0], &[1], &[2]], &[words::exclusion(1, 3, &[0, 1, 2])]);
    assert_eq!(told(&image, &ledger, obstacle(2, 0b010, 7)), CLEAR);
    assert_eq!(told(&image, &ledger, obstacle(2, 0b110, 7)), Way(4, rule(1, 3), 1, 7));
}

/// Exclusions of which every one is in the way of an ask for permissions 0 to 3 by the four roles that carry one each,
/// in tidy order: by kind, then n, then set number.
fn all_in_the_way() -> Vec<Vec<u32>> {
    vec![
        words::exclusion(0, 2, &[0, 1]),
        words::exclusion(0, 2, &[0, 1, 2]),
        words::exclusion(0, 2, &[0, 3]),
        words::exclusion(0, 3, &[0, 1, 2]),
        words::exclusion(0, 4, &[0, 1, 2, 3]),
        words::exclusion(1, 2, &[2, 3]),
        words::exclusion(1, 3, &[0, 1, 3]),
        words::exclusion(2, 2, &[1, 2]),
        words::exclusion(3, 2, &[0, 2]),
    ]
}

/// What the exclusions of a tidy image ascend by: kind, n and set number.
fn place(exclusion: &[u32]) -> (u64, u64, u64) {
    let members = exclusion[1..].iter().fold(0, |sum, word| sum | 1 << (word >> 22 & 63));
    (u64::from(exclusion[0] >> 26 & 3), u64::from(exclusion[0] >> 19 & 127), members)
}

/// What an obstacle tells of an exclusion that nothing is counted of yet.
fn named(exclusion: &[u32]) -> Told {
    let (kind, n, members) = place(exclusion);
    Way(4, rule(kind, n), 0, members)
}

#[test]
fn of_several_exclusions_in_the_way_the_first_of_the_tidy_image_is_named_in_every_order() {
    let rows: [&[u32]; 4] = [&[0], &[1], &[2], &[3]];
    let mut rng = Rng::new(14);
    for from in 0..all_in_the_way().len() {
        let mut exclusions = all_in_the_way()[from..].to_vec();
        let first = named(&exclusions[0]);
        for _ in 0..20 {
            assert_eq!(told(&image(&rows, &exclusions), &fresh(), obstacle(0, 15, 15)), first, "{exclusions:x?}");
            rng.shuffle(&mut exclusions);
            exclusions.iter_mut().for_each(|exclusion| rng.shuffle(&mut exclusion[1..]));
        }
    }
}

#[test]
fn a_repeated_exclusion_is_named_as_once() {
    let rows: [&[u32]; 4] = [&[0], &[1], &[2], &[3]];
    for exclusion in all_in_the_way() {
        let mut turned = exclusion.clone();
        turned[1..].reverse();
        let repeated: Vec<Vec<u32>> = (0..32).map(|k| if k % 2 == 0 { exclusion.clone() } else { turned.clone() }).collect();
        assert_eq!(told(&image(&rows, &repeated), &fresh(), obstacle(0, 15, 15)), named(&exclusion));
    }
}

#[test]
fn an_exclusion_that_leaves_sets_alone_is_named_where_it_takes_the_last_that_those_before_left() {
    // permission 0 by role 0 or 1; each exclusion bars one of them by the window's past, so that the later one takes
    // the last set
    let ledger = line(&[(&[], &[2, 3])], &[]);
    let bars = [words::exclusion(2, 2, &[0, 2]), words::exclusion(2, 2, &[1, 3])];
    let rows: [&[u32]; 4] = [&[0], &[0], &[5], &[6]];
    for exclusions in [[bars[0].clone(), bars[1].clone()], [bars[1].clone(), bars[0].clone()]] {
        assert_eq!(told(&image(&rows, &exclusions), &ledger, obstacle(0, 1, u64::MAX)), Way(4, rule(2, 2), 0b1000, 0b1010));
    }
    for alone in bars {
        assert_eq!(told(&image(&rows, &[alone]), &ledger, obstacle(0, 1, u64::MAX)), CLEAR);
    }
}

#[test]
fn exclusions_that_do_not_matter_are_passed_over_whether_before_or_behind() {
    let idle = |kind, n| words::exclusion(kind, n, &[2, 3, 4]);
    let exclusions = [idle(0, 2), idle(0, 3), words::exclusion(1, 2, &[0, 1]), idle(1, 3), idle(3, 2)];
    let image = image(&[&[0], &[1], &[2], &[3], &[4]], &exclusions);
    assert_eq!(told(&image, &fresh(), obstacle(0, 3, 31)), Way(4, rule(1, 2), 0, 3));
    assert_eq!(told(&image, &fresh(), obstacle(0, 5, 31)), CLEAR);
}

#[test]
fn a_barred_role_is_no_way_round_an_exclusion() {
    // permission 1 by role 1, which excludes role 0, or by role 2, which is barred
    let more = [vec![words::limit(2, 2)], words::exclusion(0, 2, &[0, 1])];
    let image = image_of(2, &[0, 1, 2], &[&[0], &[1], &[1]], &more);
    assert_eq!(told(&image, &beside(&[]), obstacle(0, 3, 3)), CLEAR);
    assert_eq!(told(&image, &beside(&[2]), obstacle(0, 3, 3)), Way(4, rule(0, 2), 0, 3));
}

#[test]
fn a_role_that_carries_too_much_is_no_way_round_an_exclusion() {
    let image = image(&[&[0], &[1], &[1, 9]], &[words::exclusion(0, 2, &[0, 1])]);
    assert_eq!(told(&image, &fresh(), obstacle(0, 3, 3 | 1 << 9)), CLEAR);
    assert_eq!(told(&image, &fresh(), obstacle(0, 3, 3)), Way(4, rule(0, 2), 0, 3));
}

#[test]
fn only_the_named_session_and_user_are_looked_at() {
    // the same ask is clear in a fresh window and barred in one with a past; another user's past has no say
    let image = image_of(2, &[0, 1], &[&[0], &[1]], &[words::exclusion(2, 2, &[0, 1])]);
    let ledger = [line(&[(&[], &[0]), (&[], &[])], &[]), line(&[(&[], &[])], &[])].concat();
    let asked = |user, session| Call::Obstacle { user, session, lower: ward::bound(2), upper: ward::bound(3), room: 16 };
    assert_eq!(told(&image, &ledger, asked(0, 0)), Way(4, rule(2, 2), 1, 3));
    assert_eq!(told(&image, &ledger, asked(0, 1)), CLEAR);
    assert_eq!(told(&image, &ledger, asked(1, 0)), CLEAR);
    let mut garbage = ledger.clone();
    garbage[LINE..].fill(0xA5);
    assert_eq!(told(&image, &garbage, asked(0, 0)), Way(4, rule(2, 2), 1, 3));
}

#[test]
fn every_permission_is_told_by_each_of_the_first_three_kinds() {
    for permission in 0..256u32 {
        let mut lower = vec![0; 32];
        lower[permission as usize / 8] |= 1 << (permission % 8);
        let other = (permission + 1) % 256;
        let ask = Call::Obstacle { user: 0, session: 0, lower: lower.clone(), upper: lower, room: 16 };
        let built = |list: &[u32]| words::bytes(&words::closed([&[words::head(2, 64, 256)], list].concat()));
        let own = built(&[words::assignment(0, 0), words::grant(63, permission)]);
        let wide = built(&[words::assignment(0, 63), words::grant(63, permission), words::grant(63, other)]);
        let limited =
            built(&[words::assignment(0, 63), words::assignment(1, 63), words::grant(63, permission), words::limit(63, 2)]);
        let about = u64::from(permission);
        assert_eq!(told(&own, &beside(&[]), ask.clone()), Way(1, about, 1 << 63, 0));
        assert_eq!(told(&wide, &beside(&[]), ask.clone()), Way(2, about, 1 << 63, 0));
        assert_eq!(told(&limited, &beside(&[63]), ask), Way(3, about, 1 << 63, 0));
    }
}

#[test]
fn every_kind_and_n_of_an_exclusion_is_told_up_to_64() {
    for kind in 0..4u32 {
        for n in 2..=64u32 {
            // n roles of which 14 are the user's and asked for, the others counted already by kind where it counts more
            // than the set
            let members: Vec<u32> = (0..n).collect();
            let asked = n.min(14);
            let mut list = vec![words::head(1, 64, 64)];
            list.extend((0..asked).flat_map(|role| [words::assignment(0, role), words::grant(role, role)]));
            list.extend(words::exclusion(kind, n, &members));
            let image = words::bytes(&words::closed(list));
            let past: Vec<usize> = (asked as usize..n as usize).collect();
            let ledger = match kind {
                2 => line(&[(&[], &past)], &[]),
                _ => line(&[(&[], &[])], &past),
            };
            let counted = past.iter().map(|role| 1u64 << role).sum::<u64>();
            let all = (0..n).map(|role| 1u64 << role).sum::<u64>();
            let reached = matches!(kind, 2 | 3) || past.is_empty();
            let first = if matches!(kind, 2 | 3) { counted } else { 0 };
            let expected = if reached { Way(4, rule(kind.into(), n.into()), first, all) } else { CLEAR };
            let lower = (1u64 << asked) - 1;
            assert_eq!(told(&image, &ledger, obstacle(0, lower, u64::MAX)), expected, "kind {kind}, n {n}");
        }
    }
}

#[test]
fn empty_lower_bounds_are_never_hindered_on_a_sound_line() {
    let tally = spread("empty bounds", 2_000, |rng, tally| {
        let (image, policy) = policy::any(rng).built();
        let ledger = ledger::ledger(rng, &policy, 0);
        for user in 0..policy.users.min(4) as u64 {
            for session in 0..8 {
                let (_, upper) = call::bounds(rng, &policy, user as usize);
                let call = Call::Obstacle { user, session, lower: vec![0; 32], upper, room: 16 };
                let number = leaves(&image, &ledger, &call, Empty::Null).returned % 256;
                assert!(matches!(number, 13 | 15 | 16 | 20), "{number}");
                tally.see_number(number);
            }
        }
    });
    tally.expect(1_000, &["13", "20"]);
}

#[test]
fn refuses_in_the_order_of_a_short_ask_then_by_the_buffer_then_by_20() {
    let image = ward::image_a();
    let (sound, mut unsound) = (fresh(), fresh());
    unsound[1] = 1;
    let (good, beyond, long) = (ward::bound(1), ward::bound(0x20), vec![0u8; 33]);
    let asked = |ledger: &[u8], user, session, lower: &[u8], upper: &[u8], room| {
        told(&image, ledger, Call::Obstacle { user, session, lower: lower.to_vec(), upper: upper.to_vec(), room })
    };
    assert_eq!(asked(&unsound[1..], 1, 8, &long, &beyond, 0), Refused(9, 0));
    assert_eq!(asked(&unsound, 1, 8, &long, &beyond, 0), Refused(10, 0));
    assert_eq!(asked(&unsound, 0, 8, &long, &beyond, 0), Refused(11, 0));
    assert_eq!(asked(&sound, 0, 8, &long, &beyond, 0), Refused(12, 0));
    assert_eq!(asked(&sound, 0, 1, &long, &beyond, 0), Refused(13, 0));
    assert_eq!(asked(&sound, 0, 0, &long, &beyond, 0), Refused(15, 0));
    assert_eq!(asked(&sound, 0, 0, &beyond, &long, 0), Refused(15, 0));
    assert_eq!(asked(&sound, 0, 0, &beyond, &good, 0), Refused(16, 0));
    assert_eq!(asked(&sound, 0, 0, &good, &beyond, 0), Refused(16, 0));
    assert_eq!(asked(&sound, 0, 0, &ward::bound(2), &good, 0), Refused(17, 0));
    assert_eq!(asked(&sound, 0, 0, &good, &good, 40), Refused(19, 0));
    assert_eq!(asked(&sound, 0, 0, &good, &good, 16), Way(2, 0, 1, 0));
    assert_eq!(asked(&sound, 0, 0, &good, &ward::bound(0x1f), 16), CLEAR);
}

#[test]
fn fills_buffers_of_sixteen_bytes_only() {
    for room in 0..=80 {
        for empty in [Empty::Null, Empty::Somewhere] {
            for (lower, expected) in [(0x11, Way(4, rule(1, 2), 0, 3)), (0x3, CLEAR)] {
                let call = Call::Obstacle { user: 0, session: 0, lower: ward::bound(lower), upper: ward::bound(0x1f), room };
                let run = Run { image: ward::image_a(), ledger: fresh(), calls: vec![call], empty };
                assert_eq!(told_by(&play(&run)[0]), if room == 16 { expected } else { Refused(19, 0) }, "{room} bytes");
            }
        }
    }
}

#[test]
fn refuses_null_for_image_ledger_and_bounds() {
    let call = Call::Obstacle { user: 0, session: 0, lower: vec![], upper: vec![], room: 0 };
    let run = |image: Vec<u8>, ledger| Run { image, ledger, calls: vec![call.clone()], empty: Empty::Null };
    assert_eq!(play(&run(vec![], vec![]))[0].reply.number, 1);
    assert_eq!(play(&run(ward::image_a(), vec![]))[0].reply.number, 9);
    assert_eq!(play(&run(ward::image_a(), fresh()))[0].reply.number, 15);
}

#[test]
fn refuses_users_and_sessions_beyond_up_to_the_largest_number() {
    let all_open = line(&[(&[][..], &[][..]); 8], &[]);
    for beyond in [8, 9, 15, 16, 64, 255, 256, 257, 1 << 16, 1 << 32, 1 << 60, 1 << 63, u64::MAX - 1, u64::MAX] {
        let (lower, upper) = (ward::bound(0x11), ward::bound(0x1f));
        let call = |user, session| Call::Obstacle { user, session, lower: lower.clone(), upper: upper.clone(), room: 16 };
        assert_eq!(told(&ward::image_a(), &all_open, call(0, beyond)), Refused(12, 0), "session {beyond}");
        assert_eq!(told(&ward::image_a(), &all_open, call(beyond, 0)), Refused(10, 0), "user {beyond}");
    }
    for session in 0..8 {
        assert_eq!(told(&ward::image_a(), &all_open, obstacle(session, 0x11, 0x1f)), Way(4, rule(1, 2), 0, 3));
    }
}

#[test]
fn refuses_the_image_before_all_else() {
    refused_images(14, 4_000, |_, image, (number, extra)| {
        for length in [0, LINE - 1, LINE, 2 * LINE] {
            let call = Call::Obstacle { user: u64::MAX, session: 8, lower: vec![1], upper: vec![], room: 3 };
            assert_eq!(told(image, &vec![0xFF; length], call), Refused(number, extra), "{length} bytes");
        }
    });
}

#[test]
fn under_limits_any_damaged_line_refuses_and_the_lowest_is_told() {
    let limited = image_of(3, &[0], &[&[0], &[1]], &[vec![words::limit(1, 256)]]);
    let free = image_of(3, &[0], &[&[0], &[1]], &[]);
    for damaged in 0..8u64 {
        let mut ledger = fresh().repeat(3);
        (0..3).filter(|user| damaged >> user & 1 == 1).for_each(|user| ledger[LINE * user + 1] = 4);
        for user in 0..3u64 {
            let call = Call::Obstacle { user, session: 0, lower: ward::bound(2), upper: ward::bound(3), room: 16 };
            let way = Way(1, 1, 0b10, 0);
            let lowest = (0..3).find(|other| damaged >> other & 1 == 1);
            let expected = lowest.map_or(way, |other| Refused(11, if other == user { 0 } else { other + 1 }));
            assert_eq!(told(&limited, &ledger, call.clone()), expected, "user {user}, damaged {damaged:b}");
            let own = if damaged >> user & 1 == 1 { Refused(11, 0) } else { way };
            assert_eq!(told(&free, &ledger, call), own, "user {user}, damaged {damaged:b}");
        }
    }
}

/// A policy in which all kinds of obstacles occur, at times with limits and with exclusions twice, and a ledger.
fn drawn(rng: &mut Rng) -> (Draft, Policy, Vec<u8>) {
    let mut draft = match rng.below(40) {
        0..=3 => policy::policy(rng, policy::TINY),
        4..=19 => policy::policy(rng, policy::SMALL),
        20..=23 => policy::policy(rng, policy::MIDDLE),
        24 => policy::policy(rng, policy::WIDE),
        25..=32 => policy::overlapping(rng),
        _ => policy::limited(rng),
    };
    if rng.one_in(4) {
        draft.limit_some(rng);
    }
    for _ in 0..rng.below(4) {
        let exclusions: Vec<Vec<u32>> = draft.entries.iter().filter(|entry| entry.len() > 1).cloned().collect();
        match exclusions.len() {
            0..=30 if rng.one_in(2) => draft.exclude(rng),
            1..=31 => draft.entries.push(rng.pick(&exclusions)),
            _ => {}
        }
    }
    draft.fit(rng);
    rng.shuffle(&mut draft.entries);
    let policy = draft.built().1;
    let damaged = rng.pick(&[0, 0, 0, 0, 0, 8]);
    let ledger = ledger::ledger(rng, &policy, damaged);
    (draft, policy, ledger)
}

/// Sees what was told: the kind, and what of the rule was at work in it.
fn see_told(tally: &mut Tally, policy: &Policy, ledger: &[u8], call: &Call, told: Told) {
    let Way(kind, about, first, second) = told else { return };
    let Call::Obstacle { lower, .. } = call else { panic!("{call:?} is no obstacle") };
    tally.see(["", "own", "upper", "limit", "exclusion"][kind as usize]);
    if kind < 4 {
        tally.see(if first == 0 { "no role at all" } else { "some role" });
        if (0..about).any(|below| lower[below as usize / 8] >> (below % 8) & 1 == 1) {
            tally.see("not the lowest of the lower bound");
        }
        return;
    }
    tally.see(["ss-dmer", "ms-dmer", "ss-hmer", "ms-hmer"][about as usize % 4]);
    tally.see(if first == 0 { "none counted" } else { "some counted" });
    let number = |members: &Roles| members.iter().map(|role| 1u64 << role).sum::<u64>();
    let place = |exclusion: &Exclusion| (exclusion.kind as u64, exclusion.n as u64, number(&exclusion.members));
    let this = (about % 4, about / 4, second);
    let places: Vec<_> = policy.exclusions.iter().map(place).collect();
    let first_there = places.iter().position(|other| *other == this).expect("it is one of the policy's");
    tally.see(if places.iter().any(|other| *other < this) { "exclusions before" } else { "the first exclusion" });
    if places[..first_there].iter().any(|other| *other > this) {
        tally.see("not the first of the image");
    }
    if places.iter().filter(|other| **other == this).count() > 1 {
        tally.see("repeated");
    }
    if !barred(policy, LINE, ledger, call).is_empty() {
        tally.see("exclusion beside barred roles");
    }
}

#[test]
fn tells_a_hundred_and_eighty_thousand_times_what_the_solver_does() {
    let tally = spread("obstacles", 30_000, |rng, tally| {
        let (draft, policy, mut ledger) = drawn(rng);
        let mut image = words::bytes(&draft.words());
        if rng.one_in(12) {
            image = damage::image(rng);
        }
        if rng.one_in(16) {
            ledger::misfit(rng, &mut ledger);
        }
        let calls: Vec<Call> = (0..6).map(|_| call::obstacle(rng, &policy, &ledger)).collect();
        let judged = judge(&image);
        let run = Run { image, ledger: ledger.clone(), calls, empty: rng.pick(&[Empty::Null, Empty::Somewhere]) };
        for (call, played) in run.calls.iter().zip(play(&run)) {
            tally.see("obstacles");
            tally.see_number(played.reply.number);
            if let Ok(policy) = &judged {
                see_told(tally, policy, &ledger, call, told_by(&played));
            }
        }
    });
    tally.expect(180_000, &["obstacles"]);
    tally.expect(10_000, &["0", "20"]);
    tally.expect(2_000, &["own", "upper", "limit", "exclusion", "not the lowest of the lower bound"]);
    tally.expect(500, &["ss-dmer", "ms-dmer", "ss-hmer", "ms-hmer", "no role at all", "some role"]);
    tally
        .expect(500, &["none counted", "some counted", "exclusions before", "the first exclusion", "not the first of the image"]);
    tally.expect(200, &["repeated", "exclusion beside barred roles"]);
    tally.expect(200, &NUMBERS);
}

/// The bounds of an ask, and who asks in which session.
fn asked(call: &Call) -> Option<(u64, u64, &Vec<u8>, &Vec<u8>)> {
    match call {
        Call::Ask { user, session, lower, upper, .. } | Call::ShortAsk { user, session, lower, upper, .. } => {
            Some((*user, *session, lower, upper))
        }
        _ => None,
    }
}

#[test]
fn an_ask_of_a_run_is_told_20_exactly_if_its_obstacle_is_done_and_done_exactly_if_it_is_20() {
    let tally = spread("asks and obstacles", 4_000, |rng, tally| {
        let (draft, policy, mut ledger) = drawn(rng);
        let image = words::bytes(&draft.words());
        for _ in 0..24 {
            let call = if rng.one_in(8) {
                Call::Open { user: rng.below(policy.users as u64) }
            } else {
                call::any(rng, &policy, &ledger)
            };
            if let Some((user, session, lower, upper)) = asked(&call) {
                let wish = kit::Wish { user, session, lower, upper };
                let mut roles = [0x5A; 16];
                let told = kit::obstacle(Empty::Null, &image, &ledger, &wish, &mut roles);
                for objectives in (0..9).map(|pair| (pair / 3, pair % 3)) {
                    let (mut after, mut answer) = (ledger.clone(), [0; 40]);
                    let returned = kit::ask(Empty::Null, &image, &mut after, &wish, objectives, &mut answer);
                    let expected = match returned % 256 {
                        0 => 20,
                        20 => 0,
                        other => other,
                    };
                    assert_eq!(told % 256, expected, "{call:?} with aims {objectives:?}");
                    assert!(told % 256 == 0 || told / 256 == returned / 256, "{call:?}: the extras {told} and {returned}");
                    assert!(told % 256 == 0 || roles == [0x5A; 16], "{call:?}: a refused obstacle fills nothing");
                }
                let (mut after, mut answer) = (ledger.clone(), [0; 40]);
                let short = kit::short_ask(Empty::Null, &image, &mut after, &wish, &mut answer) % 256;
                assert_eq!((short == 20, short == 0), (told % 256 == 0, told % 256 == 20), "{call:?}");
                tally.see("asks");
                tally.see_number(told % 256);
            }
            ledger = leaves(&image, &ledger, &call, Empty::Null).ledger;
        }
    });
    tally.expect(40_000, &["asks"]);
    tally.expect(4_000, &["0", "20"]);
    tally.expect(100, &["10", "11", "12", "13", "15", "16", "17"]);
}

#[test]
fn entries_moved_about_and_the_tidy_image_tell_the_same_bytes() {
    let tally = spread("obstacles in other orders", 6_000, |rng, tally| {
        let (draft, policy, ledger) = drawn(rng);
        let way = rng.pick(&WAYS);
        let moved = moved(rng, &draft, way);
        let [image, other] = moved.images();
        let calls: Vec<Call> = (0..6).map(|_| call::obstacle(rng, &policy, &ledger)).collect();
        let left: Vec<Left> = alike(&moved, &ledger, &calls, rng.pick(&[Empty::Null, Empty::Somewhere]));
        let tidy = tidy::write(&image, 4 * words::MOST_WORDS).bytes.expect("the image is accepted");
        for (call, left) in calls.iter().zip(left) {
            assert_eq!(leaves(&tidy, &ledger, call, Empty::Null), left, "{call:?} on the tidy image of {image:02x?}");
            assert_eq!(left.ledger, ledger, "{call:?} touches the ledger");
            tally.see_number(left.returned % 256);
            if left.returned % 256 == 0 {
                tally.see(["", "own", "upper", "limit", "exclusion"][(left.returned / 256 % 8) as usize]);
                tally.see(if image == other { "the same order" } else { "another order" });
                tally.see(if image == tidy { "tidy already" } else { "not tidy" });
            }
        }
    });
    tally.expect(300, &["own", "upper", "limit", "exclusion"]);
    tally.expect(1_000, &["0", "20", "another order", "not tidy"]);
}

/// The image with only those of its exclusions that stand before one in the order of the tidy image, or with that one
/// too.
fn cut(draft: &Draft, this: (u64, u64, u64), with_it: bool) -> Vec<u8> {
    let mut less = draft.clone();
    less.entries.retain(|entry| entry.len() == 1 || place(entry) < this || with_it && place(entry) == this);
    words::bytes(&less.words())
}

#[test]
fn before_the_named_exclusion_the_ask_is_given_and_with_it_none_is_left() {
    let tally = spread("exclusions cut", 8_000, |rng, tally| {
        let (draft, policy, ledger) = drawn(rng);
        let image = words::bytes(&draft.words());
        for _ in 0..6 {
            let call = call::obstacle(rng, &policy, &ledger);
            let left = leaves(&image, &ledger, &call, Empty::Null);
            let extra = left.returned / 256;
            if left.returned % 256 != 0 || extra % 8 != 4 {
                continue;
            }
            let (first, members) = sets(&left.answer);
            let (kind, n) = (extra / 8 % 4, extra / 32);
            assert_eq!(first & !members, 0, "what is counted are members");
            assert!(u64::from(first.count_ones()) < n, "the line is sound, so fewer than n are counted");
            let before = leaves(&cut(&draft, (kind, n, members), false), &ledger, &call, Empty::Null);
            let with_it = leaves(&cut(&draft, (kind, n, members), true), &ledger, &call, Empty::Null);
            assert_eq!(before.returned, 20, "{call:?}");
            assert_eq!((with_it.returned, with_it.answer), (left.returned, left.answer), "{call:?}");
            tally.see("exclusions");
        }
    });
    tally.expect(3_000, &["exclusions"]);
}

/// The image with these words before its end word.
fn with_words(image: &[u8], more: &[u32]) -> Vec<u8> {
    let mut list = words::from_bytes(image);
    list.pop();
    list.extend(more);
    words::bytes(&words::closed(list))
}

#[test]
fn what_a_permission_lacks_goes_when_it_is_given_a_role_a_wider_bound_or_no_limit() {
    let tally = spread("permissions helped", 8_000, |rng, tally| {
        let (draft, policy, ledger) = drawn(rng);
        let image = words::bytes(&draft.words());
        for _ in 0..6 {
            let call = call::obstacle(rng, &policy, &ledger);
            let left = leaves(&image, &ledger, &call, Empty::Null);
            let (kind, about) = (left.returned / 256 % 8, left.returned / 2048);
            if left.returned % 256 != 0 || kind == 4 {
                continue;
            }
            let Call::Obstacle { user, session, lower, upper, room } = call.clone() else { panic!("{call:?} is no obstacle") };
            let first = sets(&left.answer).0;
            let (helped, call) = match kind {
                1 if first == 0 => continue,
                1 => (with_words(&image, &[words::assignment(user as u32, first.trailing_zeros())]), call),
                2 => (image.clone(), Call::Obstacle { user, session, lower, upper: full(&policy, upper.len()), room }),
                _ => {
                    let mut less = draft.clone();
                    less.entries.retain(|entry| entry[0] >> 28 != 7);
                    (words::bytes(&less.words()), call)
                }
            };
            if judge(&helped).is_err() {
                tally.see("too many roles");
                continue;
            }
            let after = leaves(&helped, &ledger, &call, Empty::Null).returned;
            let same = after % 256 == 0 && (after / 256 % 8, after / 2048) == (kind, about);
            assert!(!same, "{call:?} is told {kind} about {about} as before");
            assert!(after % 256 != 0 || after / 256 % 8 >= kind, "{call:?} is told an earlier kind");
            tally.see(["", "own helped", "upper helped", "limit helped"][kind as usize]);
        }
    });
    tally.expect(200, &["own helped", "upper helped", "limit helped"]);
}

/// All permissions of a policy as a bound of this length.
fn full(policy: &Policy, length: usize) -> Vec<u8> {
    let mut bound = call::bound(&(0..policy.permissions).collect());
    bound.resize(length, 0);
    bound
}

#[test]
fn an_obstacle_between_the_calls_of_others_changes_nothing() {
    let tally = spread("obstacles between calls", 2_000, |rng, tally| {
        let (draft, policy, ledger) = drawn(rng);
        let image = words::bytes(&draft.words());
        let plain = |rng: &mut Rng| loop {
            let call = call::any(rng, &policy, &ledger);
            if !matches!(call, Call::Obstacle { .. }) {
                return call;
            }
        };
        let calls: Vec<Call> = (0..8).map(|_| plain(rng)).collect();
        let run = Run { image, ledger: ledger.clone(), calls, empty: Empty::Somewhere };
        let told = unmoved_by(rng, &run, |rng| call::obstacle(rng, &policy, &ledger));
        told.iter().for_each(|played| tally.see_number(played.reply.number));
    });
    tally.expect(100, &["0", "11", "12", "13", "19", "20"]);
}

#[test]
fn tells_users_of_sixteen_roles_under_thirty_two_exclusions() {
    let tally = spread("obstacles to sixteen roles", 60, |rng, tally| {
        let exclusions = rng.pick(&[8, 32, 32]);
        let mut draft = policy::crowded(rng, exclusions);
        if rng.one_in(3) {
            draft.limit_some(rng);
        }
        let (image, policy) = draft.built();
        let ledger = ledger::ledger(rng, &policy, 0);
        let mut calls = vec![Call::Open { user: 0 }, Call::Open { user: 0 }];
        for _ in 0..4 {
            let (lower, upper) = call::bounds(rng, &policy, 0);
            calls.push(Call::Obstacle { user: 0, session: rng.below(2), lower, upper, room: 16 });
        }
        let run = Run { image, ledger: ledger.clone(), calls, empty: Empty::Somewhere };
        for (call, played) in run.calls.iter().zip(play(&run)).skip(2) {
            tally.see_number(played.reply.number);
            see_told(tally, &policy, &ledger, call, told_by(&played));
        }
    });
    tally.expect(20, &["0", "20", "exclusion"]);
}

/// A user of 16 roles on an image of all 4,096 words: each permission by `holders` roles, 32 different exclusions of
/// which the last alone takes what the others left.
fn deep_image(holders: u32) -> Vec<u8> {
    let mut list = vec![words::head(64, 64, 256)];
    list.extend((0..16).map(|role| words::assignment(0, role)));
    list.extend((16..63).map(|role| words::senior(role, role + 1)));
    for permission in 0..256 {
        list.extend((0..holders).map(|next| words::grant((permission + next) % 16, permission)));
    }
    for number in 0..31 {
        list.extend(words::exclusion(0, 33 + number, &(0..64).collect::<Vec<u32>>()));
    }
    list.extend(words::exclusion(3, 2, &[0, 1]));
    while list.len() < words::MOST_WORDS - 1 {
        list.push(words::grant(63, 255));
    }
    words::bytes(&words::closed(list))
}

#[test]
fn the_deepest_obstacles_fit_a_stack_of_64_kib() {
    for holders in [1, 2, 5] {
        let image = deep_image(holders);
        let run = move || {
            let mut ledger = vec![0u8; 64 * LINE];
            ledger[0] = 1;
            let (all, few) = (vec![0xFFu8; 32], ward::bound(0x0101_0101_0101_0101));
            let bounds = [(&all, &all), (&few, &all), (&few, &few)];
            bounds.map(|(lower, upper)| {
                let wish = kit::Wish { user: 0, session: 0, lower, upper };
                let mut roles = [0u8; 16];
                kit::obstacle(Empty::Somewhere, &image, &ledger, &wish, &mut roles) % 256
            })
        };
        let thread = std::thread::Builder::new().stack_size(64 * 1024).spawn(run).expect("a thread starts");
        let numbers = thread.join().expect("the calls return");
        assert!(numbers.iter().all(|number| matches!(number, 0 | 20)), "{numbers:?}");
        assert!(numbers.contains(&0), "{numbers:?}");
    }
}
