//! Ledgers carried over from four sessions a user to eight, and back, through the C interface: each refusal in its
//! order with every byte of the target, every kind of damage at every user, round trips, runs that start on a target,
//! then moves by the ten thousand beside the solver.

use nutrameza_tests::compare::{carry, play, refused_images, spread, step, Run, Tally};
use nutrameza_tests::gen::{call, damage, ledger, policy, Rng};
use nutrameza_tests::kit::{self, Empty};
use nutrameza_tests::solver::calls::{play_with, Call};
use nutrameza_tests::solver::filled::Filled;
use nutrameza_tests::solver::image::judge;
use nutrameza_tests::solver::line::{sound, Line, LINE, SESSIONS};
use nutrameza_tests::solver::moves::{Move, BOTH, OLD_LINE, OLD_SESSIONS};
use nutrameza_tests::solver::policy::Policy;
use nutrameza_tests::ward::{self, image_of_users};

/// The numbers that a move can give, narrowing; widening gives all but 24.
const NUMBERS: [&str; 15] = ["0", "1", "2", "3", "4", "5", "6", "7", "8", "22", "23", "9", "19", "11", "24"];

/// A line of so many sessions: roles of the user's history, then sessions that are open, each with what is active in it
/// and its history.
fn line(sessions: usize, history: u8, open: &[(usize, u8, u8)]) -> Vec<u8> {
    let mut bytes = vec![0u8; 16 + 16 * sessions];
    bytes[8] = history;
    for (session, active, past) in open {
        bytes[0] |= 1 << session;
        (bytes[16 + 16 * session], bytes[24 + 16 * session]) = (*active, *past);
    }
    bytes
}

/// Bytes that are not zero, for a target before a move.
fn filler(length: usize) -> Vec<u8> {
    (0..length).map(|place| (37 * place) as u8 | 1).collect()
}

/// A move by both to a target of the fitting size.
fn moved(way: Move, image: &[u8], old: &[u8]) -> Filled {
    let (from, to) = way.lines();
    carry(way, image, old, &filler(old.len() / from * to), Empty::Somewhere, 0xC3)
}

/// Number and extra of such a move.
fn answer(way: Move, image: &[u8], old: &[u8]) -> (u64, u64) {
    let carried = moved(way, image, old);
    assert_eq!(carried.bytes.is_some(), carried.number == 0);
    (carried.number, carried.extra)
}

/// The target of such a move, which is done.
fn target(way: Move, image: &[u8], old: &[u8]) -> Vec<u8> {
    let carried = moved(way, image, old);
    assert_eq!((carried.number, carried.extra), (0, 0));
    carried.bytes.expect("a done move fills the target")
}

/// Closes the sessions 4 to 7 in each line of a ledger of eight.
fn close_upper(ledger: &mut [u8]) {
    for line in ledger.chunks_exact_mut(LINE) {
        line[0] &= 15;
        line[OLD_LINE..].fill(0);
    }
}

/// A sound ledger that a move can carry.
fn carriable(rng: &mut Rng, way: Move, policy: &Policy) -> Vec<u8> {
    let mut old = ledger::ledger_of(rng, policy, way.sessions().0, 0);
    if way == Move::Narrow {
        close_upper(&mut old);
    }
    old
}

/// A policy of so many users at least, and its image.
fn drawn(rng: &mut Rng, users: u32) -> (Vec<u8>, Policy) {
    let size = rng.pick(&[policy::TINY, policy::SMALL, policy::SMALL, policy::MIDDLE]);
    let mut draft = policy::policy(rng, size);
    draft.users = draft.users.max(users);
    let (image, policy) = draft.built();
    (image, policy)
}

#[test]
fn a_line_of_four_sessions_has_80_bytes_and_one_of_eight_144() {
    assert_eq!((Move::Widen.lines(), Move::Narrow.lines()), ((80, 144), (144, 80)));
    for users in [1, 2, 3, 17, 64] {
        let (old, wide) = (vec![0; 80 * users], vec![0; 144 * users]);
        assert_eq!(target(Move::Widen, &image_of_users(users as u32), &old), wide);
        assert_eq!(target(Move::Narrow, &image_of_users(users as u32), &wide), old);
    }
}

#[test]
fn the_past_and_each_session_stand_under_their_numbers_and_new_sessions_are_closed() {
    let open = [(0, 1, 3), (1, 0, 2), (2, 1, 1), (3, 0, 0)];
    for part in 0..16 {
        let some: Vec<_> = open.into_iter().filter(|(session, _, _)| part >> session & 1 == 1).collect();
        let (old, wide) = (line(4, 11, &some), line(8, 11, &some));
        let (others, wide_others) = ([line(4, 4, &[]), line(4, 2, &[(3, 2, 2)])], [line(8, 4, &[]), line(8, 2, &[(3, 2, 2)])]);
        let olds = [others[0].clone(), old, others[1].clone()].concat();
        let wides = [wide_others[0].clone(), wide, wide_others[1].clone()].concat();
        assert_eq!(target(Move::Widen, &image_of_users(3), &olds), wides);
        assert_eq!(target(Move::Narrow, &image_of_users(3), &wides), olds);
    }
}

#[test]
fn refuses_the_image_before_all_else() {
    refused_images(6, 3_000, |rng, image, refused| {
        let (old, new) = (rng.pick(&[0, 79, 80, 144, 160]), rng.pick(&[0, 80, 143, 144, 288]));
        let carried = carry(rng.pick(&BOTH), image, &vec![0xFF; old], &filler(new), Empty::Null, 9);
        assert_eq!((carried.number, carried.extra), refused);
    });
}

/// Lengths about a fitting one: off by a byte, by a line of either size and by half, none, the other move's, and all
/// small ones.
fn other_lengths(fitting: usize, other: usize) -> Vec<usize> {
    let near = [1, 8, 64, OLD_LINE, LINE].into_iter().flat_map(|off| [fitting + off, fitting.saturating_sub(off)]);
    near.chain([0, other, fitting / 2, 2 * fitting]).chain(0..330).filter(|length| *length != fitting).collect()
}

#[test]
fn an_old_ledger_of_another_length_is_9_whatever_the_target_is() {
    for way in BOTH {
        for users in [1, 2, 64] {
            let (from, to) = (way.lines().0 * users, way.lines().1 * users);
            for length in other_lengths(from, to) {
                for room in [to, 0, to - 1, to + 1, from] {
                    let carried = carry(way, &image_of_users(users as u32), &vec![0xFF; length], &filler(room), Empty::Null, 5);
                    assert_eq!((carried.number, carried.extra), (9, 0), "{way:?} of {length} bytes to {room}");
                }
            }
        }
    }
}

#[test]
fn a_target_of_another_length_is_19_before_any_line_is_looked_at() {
    for way in BOTH {
        for users in [1, 2, 64] {
            let (from, to) = (way.lines().0 * users, way.lines().1 * users);
            for room in other_lengths(to, from) {
                for byte in [0, 0xFF] {
                    let carried =
                        carry(way, &image_of_users(users as u32), &vec![byte; from], &filler(room), Empty::Somewhere, 5);
                    assert_eq!((carried.number, carried.extra), (19, 0), "{way:?} of {from} bytes to {room}");
                }
            }
        }
    }
}

#[test]
fn null_stands_for_no_bytes() {
    for way in BOTH {
        let (from, to) = way.lines();
        let made = |image: &[u8], old: usize, new: usize| {
            let made = |empty| carry(way, image, &vec![0; old], &filler(new), empty, 1).returned();
            assert_eq!(made(Empty::Null), made(Empty::Somewhere));
            made(Empty::Null)
        };
        assert_eq!(made(&[], 0, 0), 1);
        assert_eq!(made(&[], from, to), 1);
        assert_eq!(made(&ward::image_a(), 0, 0), 9);
        assert_eq!(made(&ward::image_a(), 0, to), 9);
        assert_eq!(made(&ward::image_a(), from, 0), 19);
        assert_eq!(made(&ward::image_a(), from, to), 0);
    }
}

#[test]
fn any_of_the_sessions_4_to_7_open_is_24_with_its_user() {
    for users in [1, 3, 64] {
        for user in [0, users / 2, users - 1] {
            for open in 16..=255u8 {
                let sessions: Vec<_> = (0..8).filter(|session| open >> session & 1 == 1).map(|session| (session, 2, 3)).collect();
                let empty: Vec<_> = sessions.iter().map(|(session, _, _)| (*session, 0, 0)).collect();
                for sessions in [sessions, empty] {
                    let mut old = vec![0; LINE * users];
                    old[LINE * user..LINE * (user + 1)].copy_from_slice(&line(8, 7, &sessions));
                    assert_eq!(answer(Move::Narrow, &image_of_users(users as u32), &old), (24, user as u64), "open {open:08b}");
                }
            }
        }
    }
}

#[test]
fn of_several_users_with_upper_sessions_open_the_lowest_is_told() {
    for lowest in 0..8 {
        let lines = (0..8).map(|user| if user < lowest { line(8, 0, &[(3, 0, 0)]) } else { line(8, 1, &[(4, 1, 1)]) });
        let old = lines.collect::<Vec<_>>().concat();
        assert_eq!(answer(Move::Narrow, &image_of_users(8), &old), (24, lowest));
    }
}

/// Lines that are not sound, of so many sessions, each in one way: bytes 1 to 7, a closed session's bytes, active
/// outside the session's history, that outside the user's, a role that is not there, one that is not authorized, an
/// exclusion broken over two windows.
fn unsound_lines(sessions: usize) -> Vec<Vec<u8>> {
    let last = sessions - 1;
    let mut lines = vec![line(sessions, 0, &[]); 8];
    (lines[0][1], lines[1][7]) = (1, 128);
    (lines[2][8], lines[2][24 + 16 * last]) = (1, 1);
    lines[3] = line(sessions, 3, &[(last, 1, 2)]);
    lines[4] = line(sessions, 2, &[(0, 1, 1)]);
    lines[5] = line(sessions, 16, &[]);
    lines[6] = line(sessions, 4, &[(1, 4, 4)]);
    lines[7] = line(sessions, 3, &[(0, 1, 1), (last, 2, 2)]);
    lines
}

#[test]
fn an_unsound_line_is_11_with_its_user_and_of_several_the_lowest() {
    for way in BOTH {
        let sessions = way.sessions().0;
        for unsound in unsound_lines(sessions) {
            for user in 0..5 {
                let lines = (0..5).map(|other| if other < user { line(sessions, 3, &[(2, 1, 1)]) } else { unsound.clone() });
                let old = lines.collect::<Vec<_>>().concat();
                assert_eq!(answer(way, &image_of_users(5), &old), (11, user), "{way:?} {unsound:02x?}");
            }
        }
    }
}

#[test]
fn in_one_line_11_comes_before_24() {
    // the damage of a closed session, the third of these lines, is none in an open one
    let numbers = [11, 11, 24, 11, 11, 11, 11, 11];
    assert_eq!(unsound_lines(SESSIONS).len(), numbers.len());
    for (mut both, number) in unsound_lines(SESSIONS).into_iter().zip(numbers) {
        for session in 4..8 {
            both[0] |= 1 << session;
        }
        assert_eq!(answer(Move::Narrow, &image_of_users(1), &both), (number, 0), "{both:02x?}");
        let old = [line(8, 1, &[(0, 1, 1)]), both.clone(), line(8, 0, &[(7, 0, 0)])].concat();
        assert_eq!(answer(Move::Narrow, &image_of_users(3), &old), (number, 1), "{both:02x?}");
    }
}

#[test]
fn in_two_lines_the_lower_user_decides_between_11_and_24() {
    for unsound in unsound_lines(SESSIONS) {
        for one in 0..6 {
            for other in (0..6).filter(|other| *other != one) {
                let mut lines = vec![line(8, 2, &[(0, 2, 2), (3, 0, 2)]); 6];
                (lines[one], lines[other]) = (unsound.clone(), line(8, 1, &[(6, 1, 1)]));
                let expected = if one < other { (11, one as u64) } else { (24, other as u64) };
                assert_eq!(answer(Move::Narrow, &image_of_users(6), &lines.concat()), expected);
            }
        }
    }
}

#[test]
fn an_old_line_with_open_bits_above_3_is_not_sound() {
    for open in 16..=255 {
        let mut old = vec![0; 3 * OLD_LINE];
        old[OLD_LINE] = open;
        assert_eq!(answer(Move::Widen, &image_of_users(3), &old), (11, 1));
    }
}

#[test]
fn every_bit_of_a_line_turned_is_judged_as_the_solver_judges_it() {
    let mut rng = Rng::new(80);
    let mut numbers = Tally::default();
    for _ in 0..6 {
        let (image, policy) = drawn(&mut rng, 3);
        for way in BOTH {
            let old = carriable(&mut rng, way, &policy);
            let (user, size) = (rng.place(policy.users), way.lines().0);
            for bit in 0..8 * size {
                let mut turned = old.clone();
                turned[size * user + bit / 8] ^= 1 << (bit % 8);
                let (number, extra) = answer(way, &image, &turned);
                assert_eq!(extra, if number == 0 { 0 } else { user as u64 });
                numbers.see_number(number);
            }
        }
    }
    numbers.expect(1, &["0", "11", "24"]);
}

#[test]
fn refuses_a_line_damaged_in_any_field_at_every_user() {
    let tally = spread("damaged lines moved", 12_000, |rng, tally| {
        let (image, policy) = drawn(rng, 1);
        let way = rng.pick(&BOTH);
        let mut old = carriable(rng, way, &policy);
        let (user, size) = (rng.place(policy.users), way.lines().0);
        let how = rng.pick(&ledger::DAMAGES);
        let line = &mut old[size * user..size * (user + 1)];
        if way == Move::Narrow && rng.one_in(2) {
            line.copy_from_slice(&ledger::sound_line(rng, &policy, user));
        }
        ledger::damage(rng, &policy, user, line, how);
        let (sound, upper) = (sound(&policy, user, line), size == LINE && line[0] > 15);
        let expected = match (sound, upper) {
            (false, _) => (11, user as u64),
            (true, true) => (24, user as u64),
            (true, false) => (0, 0),
        };
        assert_eq!(answer(way, &image, &old), expected);
        tally.see_number(expected.0);
        if !sound {
            tally.see(&format!("{way:?} {how:?}"));
            tally.see(if upper { "11 with upper sessions open" } else { "11 alone" });
        }
    });
    let names: Vec<String> =
        BOTH.iter().flat_map(|way| ledger::DAMAGES.iter().map(move |how| format!("{way:?} {how:?}"))).collect();
    tally.expect(30, &names.iter().map(String::as_str).collect::<Vec<_>>());
    tally.expect(100, &["0", "24", "11 with upper sessions open", "11 alone"]);
}

/// A policy, its image and a ledger of eight sessions after some calls by everybody.
fn in_use(rng: &mut Rng) -> (Vec<u8>, Policy, Vec<u8>) {
    let (image, policy) = drawn(rng, 1);
    let mut ledger = if rng.one_in(2) { vec![0; LINE * policy.users] } else { ledger::ledger(rng, &policy, 0) };
    for _ in 0..rng.below(30) {
        let call =
            if rng.one_in(2) { Call::Open { user: rng.below(policy.users as u64) } } else { call::any(rng, &policy, &ledger) };
        go_on(&image, &mut ledger, &call);
    }
    (image, policy, ledger)
}

/// One more call by both on a ledger; its number.
fn go_on(image: &[u8], ledger: &mut Vec<u8>, call: &Call) -> u64 {
    step(&judge(image), image, ledger, call, Empty::Null, 0x66).unwrap_or_else(|text| panic!("{call:?}: {text}")).number
}

#[test]
fn narrowed_and_widened_a_ledger_in_use_comes_back_byte_for_byte() {
    let tally = spread("ledgers in use, to four and back", 4_000, |rng, tally| {
        let (image, policy, mut wide) = in_use(rng);
        // what a site does on 24: it closes the upper sessions of the user that it is told, and tries again
        loop {
            let carried = moved(Move::Narrow, &image, &wide);
            tally.see_number(carried.number);
            if carried.number == 0 {
                break;
            }
            assert_eq!(carried.number, 24);
            for session in OLD_SESSIONS as u64..SESSIONS as u64 {
                let closed = go_on(&image, &mut wide, &Call::Close { user: carried.extra, session });
                assert!(closed == 0 || closed == 13);
            }
        }
        let old = target(Move::Narrow, &image, &wide);
        assert_eq!(target(Move::Widen, &image, &old), wide);
        for (user, line) in old.chunks_exact(OLD_LINE).enumerate() {
            assert!(sound(&policy, user, line));
            tally.see(&format!("{} sessions open", line[0].count_ones()));
        }
    });
    tally.expect(4_000, &["0"]);
    tally.expect(1_000, &["24", "0 sessions open", "1 sessions open", "2 sessions open", "3 sessions open", "4 sessions open"]);
}

#[test]
fn widened_and_narrowed_an_old_ledger_comes_back_byte_for_byte() {
    let tally = spread("old ledgers, to eight and back", 8_000, |rng, tally| {
        let (image, policy) = drawn(rng, 1);
        let old = ledger::ledger_of(rng, &policy, OLD_SESSIONS, 0);
        let wide = target(Move::Widen, &image, &old);
        assert_eq!(target(Move::Narrow, &image, &wide), old);
        for (user, (line, before)) in wide.chunks_exact(LINE).zip(old.chunks_exact(OLD_LINE)).enumerate() {
            assert!(sound(&policy, user, line) && sound(&policy, user, before));
            tally.see(&format!("{} sessions open", before[0].count_ones()));
        }
    });
    tally.expect(1_000, &["0 sessions open", "1 sessions open", "2 sessions open", "3 sessions open", "4 sessions open"]);
}

#[test]
fn a_play_that_starts_on_a_widened_ledger_goes_as_the_solver_says() {
    let tally = spread("plays on widened ledgers", 4_000, |rng, tally| {
        let (image, policy) = drawn(rng, 1);
        let ledger = target(Move::Widen, &image, &ledger::ledger_of(rng, &policy, OLD_SESSIONS, 0));
        let calls: Vec<Call> = (0..16)
            .map(|_| {
                if rng.one_in(3) {
                    Call::Open { user: rng.below(policy.users as u64) }
                } else {
                    call::any(rng, &policy, &ledger)
                }
            })
            .collect();
        for (call, played) in calls.iter().zip(play(&Run { image, ledger, calls: calls.clone(), empty: Empty::Null })) {
            tally.see_number(played.reply.number);
            if matches!(call, Call::Open { .. }) && played.reply.number == 0 && played.reply.extra > 3 {
                tally.see("opened above 3");
            }
        }
    });
    assert_eq!(tally.count("11"), 0);
    tally.expect(1_000, &["0", "opened above 3", "12", "13", "20"]);
    tally.expect(100, &["14", "15", "16", "17", "18", "19"]);
}

#[test]
fn each_user_is_told_the_same_from_widened_ledgers_that_agree_in_the_line() {
    let tally = spread("users alone on widened ledgers", 1_500, |rng, tally| {
        let (image, policy) = drawn(rng, 2);
        let (first, second) = (carriable(rng, Move::Widen, &policy), carriable(rng, Move::Widen, &policy));
        let user = rng.place(policy.users);
        let wide = target(Move::Widen, &image, &first);
        let calls: Vec<Call> = (0..12).map(|_| call::any(rng, &policy, &wide)).collect();
        let own: Vec<Call> = calls.iter().filter(|call| call.user() == user as u64).cloned().collect();
        let mut other = second;
        other[OLD_LINE * user..OLD_LINE * (user + 1)].copy_from_slice(&first[OLD_LINE * user..OLD_LINE * (user + 1)]);
        let run = |ledger, calls| Run { image: image.clone(), ledger, calls, empty: Empty::Null };
        let together = play(&run(wide, calls.clone()));
        let alone = play(&run(target(Move::Widen, &image, &other), own));
        let told: Vec<_> =
            calls.iter().zip(together).filter(|(call, _)| call.user() == user as u64).map(|(_, told)| told).collect();
        assert_eq!(alone, told);
        told.iter().for_each(|played| tally.see_number(played.reply.number));
    });
    tally.expect(100, &["0", "13", "20"]);
}

/// A call for which a user of four sessions is told what one of eight is: it names none of the sessions 4 to 7 and
/// opens none of them.
fn within_four(call: &Call, old: &[u8]) -> bool {
    let full = old.chunks_exact(OLD_LINE).nth(call.user() as usize).is_some_and(|line| line[0] == 15);
    match call {
        Call::Open { .. } => !full,
        _ => !(OLD_SESSIONS as u64..SESSIONS as u64).contains(&call.session()),
    }
}

#[test]
fn a_play_within_four_sessions_of_a_widened_ledger_is_that_of_the_old_one_and_is_carried_back() {
    let tally = spread("plays within four sessions", 3_000, |rng, tally| {
        let (image, policy) = drawn(rng, 1);
        let judged = judge(&image);
        let mut old = ledger::ledger_of(rng, &policy, OLD_SESSIONS, 0);
        let mut wide = target(Move::Widen, &image, &old);
        for _ in 0..16 {
            let call = call::any(rng, &policy, &wide);
            if !within_four(&call, &old) {
                continue;
            }
            let before = play_with(OLD_SESSIONS, &judged, &mut old, &call);
            let after = step(&judged, &image, &mut wide, &call, Empty::Somewhere, 0x17).unwrap();
            assert_eq!(before, after, "{call:?}");
            tally.see_number(after.number);
        }
        assert_eq!(target(Move::Narrow, &image, &wide), old);
        assert_eq!(target(Move::Widen, &image, &old), wide);
    });
    tally.expect(1_000, &["0", "13", "20"]);
    tally.expect(100, &["12", "15", "16", "17", "18", "19"]);
}

/// Shows and explains of each user's sessions below 4 on a ledger of eight by the kit, and on one of four by the
/// solver: the same.
fn shown_alike(image: &[u8], policy: &Policy, old: &mut [u8], wide: &mut Vec<u8>, tally: &mut Tally) {
    let judged = judge(image);
    for user in 0..policy.users as u64 {
        for session in 0..OLD_SESSIONS as u64 {
            let explains = (0..policy.permissions as u64).map(|permission| Call::Explain { user, session, permission });
            for call in [Call::Show { user, session, room: 40 }].into_iter().chain(explains) {
                let by_kit = step(&judged, image, wide, &call, Empty::Null, 0x81).unwrap();
                assert_eq!(by_kit, play_with(OLD_SESSIONS, &judged, old, &call), "{call:?}");
                tally.see_number(by_kit.number);
            }
        }
    }
}

#[test]
fn a_session_shows_and_explains_the_same_before_and_after_a_move() {
    let tally = spread("shows before and after", 300, |rng, tally| {
        let (image, policy) = drawn(rng, 1);
        let mut old = ledger::ledger_of(rng, &policy, OLD_SESSIONS, 0);
        let mut wide = target(Move::Widen, &image, &old);
        shown_alike(&image, &policy, &mut old, &mut wide, tally);
        let (image, policy, mut wide) = in_use(rng);
        close_upper(&mut wide);
        let mut old = target(Move::Narrow, &image, &wide);
        shown_alike(&image, &policy, &mut old, &mut wide, tally);
    });
    tally.expect(2_000, &["0", "13", "20"]);
}

#[test]
fn the_old_ledger_may_be_kept_and_moved_again_to_the_same_bytes() {
    let mut rng = Rng::new(144);
    for way in BOTH {
        let (image, policy) = drawn(&mut rng, 4);
        let old = carriable(&mut rng, way, &policy);
        let first = target(way, &image, &old);
        for byte in [0, 0xFF, 0x5A] {
            let carried = carry(way, &image, &old, &vec![byte; first.len()], Empty::Somewhere, byte);
            assert_eq!(carried.bytes.as_deref(), Some(&first[..]));
        }
    }
}

/// An old ledger for a move under a policy: sound mostly, damaged in some lines, of another length at times; narrowing,
/// with upper sessions open in none, some or most lines.
fn any_old(rng: &mut Rng, way: Move, policy: &Policy) -> Vec<u8> {
    let damaged = rng.pick(&[0, 0, 0, 3, 24]);
    let mut old = ledger::ledger_of(rng, policy, way.sessions().0, damaged);
    if way == Move::Narrow {
        let kept = rng.pick(&[0, 0, 1, 2, 8]);
        for line in old.chunks_exact_mut(LINE) {
            if kept == 0 || !rng.one_in(kept) {
                close_upper(line);
            }
        }
    }
    if rng.one_in(10) {
        ledger::misfit_of(rng, &mut old, way.lines().0);
    }
    old
}

#[test]
fn moves_twenty_thousand_ledgers_as_the_solver_does() {
    let tally = spread("moves", 20_000, |rng, tally| {
        let (mut image, policy) = policy::any(rng).built();
        let way = rng.pick(&BOTH);
        let old = any_old(rng, way, &policy);
        let mut new = filler(way.lines().1 * policy.users);
        if rng.one_in(10) {
            ledger::misfit_of(rng, &mut new, way.lines().1);
        }
        if rng.one_in(6) {
            image = damage::image(rng);
        }
        let carried = carry(way, &image, &old, &new, rng.pick(&[Empty::Null, Empty::Somewhere]), rng.draw() as u8);
        tally.see_number(carried.number);
        tally.see(&format!("{way:?} {}", if carried.number == 0 { "done" } else { "refused" }));
        if way == Move::Widen {
            assert_ne!(carried.number, 24);
        }
        if carried.number == 11 || carried.number == 24 {
            tally.see(if carried.extra == 0 { "at user 0" } else { "at a later user" });
        }
        if let Some(target) = carried.bytes {
            assert_eq!(self::target(way.back(), &image, &target), old);
        }
    });
    tally.expect(60, &NUMBERS);
    tally.expect(1_000, &["Widen done", "Narrow done", "9", "19", "11", "at user 0", "at a later user"]);
    tally.expect(500, &["24"]);
}

#[test]
fn the_largest_moves_fit_a_stack_of_64_kib() {
    let image = policy::largest();
    let policy = judge(&image).expect("the image is accepted");
    let mut rng = Rng::new(64);
    let old = ledger::ledger_of(&mut rng, &policy, OLD_SESSIONS, 0);
    assert!(old.chunks_exact(OLD_LINE).any(|line| Line::read(line).sessions.iter().all(|session| session.open)));
    let run = move || {
        let (mut wide, mut back) = (vec![0xA5; LINE * 64], vec![0xA5; OLD_LINE * 64]);
        let widened = kit::carry(Empty::Somewhere, Move::Widen, &image, &old, &mut wide);
        let narrowed = kit::carry(Empty::Somewhere, Move::Narrow, &image, &wide, &mut back);
        wide[LINE * 63] |= 128;
        let refused = kit::carry(Empty::Somewhere, Move::Narrow, &image, &wide, &mut back);
        (widened, narrowed, refused, back == old)
    };
    let thread = std::thread::Builder::new().stack_size(64 * 1024).spawn(run).expect("a thread starts");
    assert_eq!(thread.join().expect("the moves return"), (0, 0, 24 + 256 * 63, true));
}
