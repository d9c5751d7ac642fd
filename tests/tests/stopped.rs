//! Whom an image stops, through the C interface: each refusal in its order with every byte of the buffer, every kind of
//! damage at every user, then policies that change while people work, beside the solver.

use nutrameza_tests::compare::{play, refused_images, spread, step, stopped, Played, Run, Tally};
use nutrameza_tests::gen::change::{self, Change};
use nutrameza_tests::gen::policy::Draft;
use nutrameza_tests::gen::{call, damage, ledger, policy, Rng};
use nutrameza_tests::kit::{self, Empty};
use nutrameza_tests::solver::calls::Call;
use nutrameza_tests::solver::filled::Filled;
use nutrameza_tests::solver::image::judge;
use nutrameza_tests::solver::line::{sound, LINE};
use nutrameza_tests::solver::policy::Policy;
use nutrameza_tests::solver::stopped::{names, USERS};
use nutrameza_tests::ward::{self, image_of_users};
use nutrameza_tests::words;

/// The numbers that the stopped call can give.
const NUMBERS: [&str; 13] = ["0", "1", "2", "3", "4", "5", "6", "7", "8", "22", "23", "9", "19"];

/// The call by both with a buffer of the right size.
fn told(image: &[u8], ledger: &[u8]) -> Filled<[u8; USERS]> {
    let told = stopped(image, ledger, USERS, Empty::Somewhere, 0xC3);
    assert_eq!(told.bytes.is_some(), told.number == 0);
    told
}

/// The answer to an open by the kit on a copy of the ledger.
fn opened(image: &[u8], ledger: &[u8], user: usize) -> u64 {
    kit::open(Empty::Somewhere, image, &mut ledger.to_vec(), user as u64) % 256
}

#[test]
fn each_user_alone_is_told_as_that_users_bit() {
    for users in [1, 2, 7, 8, 9, 63, 64] {
        assert_eq!(told(&image_of_users(users), &vec![0; LINE * users as usize]).bytes, Some([0; 8]));
        for user in 0..users as usize {
            let mut ledger = vec![0; LINE * users as usize];
            ledger[LINE * user + 1] = 1;
            let told = told(&image_of_users(users), &ledger);
            assert_eq!((told.number, told.extra, told.bytes), (0, 1, Some((1u64 << user).to_le_bytes())));
        }
        let all = told(&image_of_users(users), &vec![0xFF; LINE * users as usize]);
        assert_eq!((all.extra, all.bytes), (users as u64, Some((u64::MAX >> (64 - users)).to_le_bytes())));
    }
}

#[test]
fn a_zero_line_is_never_stopped() {
    let tally = spread("zero lines", 3_000, |rng, tally| {
        let image = words::bytes(&policy::any(rng).words());
        let policy = policy::accepted(&image);
        let told = told(&image, &vec![0; LINE * policy.users]);
        assert_eq!((told.number, told.extra, told.bytes), (0, 0, Some([0; 8])));
        tally.see("policies");
    });
    tally.expect(3_000, &["policies"]);
}

#[test]
fn refuses_the_image_before_all_else() {
    refused_images(15, 3_000, |rng, image, refused| {
        let (length, room) = (rng.pick(&[0, 143, 144, 145, 288]), rng.pick(&[0, 7, 8, 9]));
        let told = stopped(image, &vec![0xFF; length], room, Empty::Null, 9);
        assert_eq!((told.number, told.extra), refused);
    });
}

#[test]
fn a_ledger_of_another_length_is_9_whatever_the_buffer_is() {
    for users in [1, 2, 64] {
        let fitting = LINE * users;
        let near = [1, 8, 64, LINE].into_iter().flat_map(|off| [fitting + off, fitting.saturating_sub(off)]);
        for length in near.chain([fitting / 2, 2 * fitting]).chain(0..330).filter(|length| *length != fitting) {
            for room in [8, 0, 7, 9] {
                let told = stopped(&image_of_users(users as u32), &vec![0xFF; length], room, Empty::Null, 5);
                assert_eq!((told.number, told.extra), (9, 0), "{length} bytes for {users} users");
            }
        }
    }
}

#[test]
fn a_buffer_of_another_size_is_19_and_stays() {
    for users in [1, 2, 64] {
        for room in (0..300).filter(|room| *room != USERS) {
            for byte in [0, 0xFF] {
                let told = stopped(&image_of_users(users as u32), &vec![byte; LINE * users], room, Empty::Somewhere, 5);
                assert_eq!((told.number, told.extra), (19, 0), "a buffer of {room} bytes");
            }
        }
    }
}

#[test]
fn null_stands_for_no_bytes() {
    let made = |image: &[u8], length: usize, room: usize| {
        let made = |empty| stopped(image, &vec![0; length], room, empty, 1).returned();
        assert_eq!(made(Empty::Null), made(Empty::Somewhere));
        made(Empty::Null)
    };
    assert_eq!(made(&[], 0, 0), 1);
    assert_eq!(made(&[], LINE, 8), 1);
    assert_eq!(made(&ward::image_a(), 0, 0), 9);
    assert_eq!(made(&ward::image_a(), LINE, 0), 19);
    assert_eq!(made(&ward::image_a(), LINE, 8), 0);
}

#[test]
fn a_role_over_its_limit_stops_nobody() {
    let mut list = vec![words::head(3, 1, 1), words::limit(0, 2), words::grant(0, 0)];
    list.extend((0..3).map(|user| words::assignment(user, 0)));
    let image = words::bytes(&words::closed(list));
    let mut line = vec![0; LINE];
    for session in 0..8 {
        line[0] |= 1 << session;
        (line[8], line[16 + 16 * session], line[24 + 16 * session]) = (1, 1, 1);
    }
    assert_eq!(told(&image, &[line.clone(), line.clone(), line].concat()).bytes, Some([0; 8]));
}

#[test]
fn tells_a_line_damaged_in_any_field_at_every_user() {
    let tally = spread("damaged lines told", 12_000, |rng, tally| {
        let size = rng.pick(&[policy::TINY, policy::SMALL, policy::SMALL, policy::MIDDLE]);
        let image = words::bytes(&policy::policy(rng, size).words());
        let policy = policy::accepted(&image);
        let mut ledger = ledger::ledger(rng, &policy, 0);
        let (user, how) = (rng.place(policy.users), rng.pick(&ledger::DAMAGES));
        let line = &mut ledger[LINE * user..LINE * (user + 1)];
        ledger::damage(rng, &policy, user, line, how);
        let bad = !sound(&policy, user, line);
        let told = told(&image, &ledger);
        assert_eq!((told.number, told.extra), (0, u64::from(bad)));
        for other in 0..policy.users {
            assert_eq!(names(&told, other), other == user && bad);
        }
        if bad {
            tally.see(&format!("{how:?}"));
        }
    });
    let names: Vec<String> = ledger::DAMAGES.iter().map(|how| format!("{how:?}")).collect();
    tally.expect(30, &names.iter().map(String::as_str).collect::<Vec<_>>());
}

#[test]
fn a_user_is_told_exactly_if_an_open_gives_11() {
    let tally = spread("users told and opened", 12_000, |rng, tally| {
        let image = words::bytes(&policy::any(rng).words());
        let policy = policy::accepted(&image);
        let damaged = rng.pick(&[0, 2, 5]);
        let ledger = ledger::ledger(rng, &policy, damaged);
        let told = told(&image, &ledger);
        for user in 0..policy.users {
            let number = opened(&image, &ledger, user);
            assert_eq!(names(&told, user), number == 11, "user {user} is answered {number}");
            tally.see_number(number);
        }
        (policy.users..64).for_each(|user| assert!(!names(&told, user)));
    });
    tally.expect(1_000, &["0", "11", "14"]);
}

#[test]
fn tells_twenty_thousand_ledgers_as_the_solver_does() {
    let tally = spread("ledgers told", 20_000, |rng, tally| {
        let mut image = words::bytes(&policy::any(rng).words());
        let damaged = rng.pick(&[0, 3, 24]);
        let mut ledger = ledger::ledger(rng, &policy::accepted(&image), damaged);
        if rng.one_in(10) {
            ledger::misfit(rng, &mut ledger);
        }
        if rng.one_in(6) {
            image = damage::image(rng);
        }
        let room = if rng.one_in(10) { rng.place(17) } else { USERS };
        let told = stopped(&image, &ledger, room, rng.pick(&[Empty::Null, Empty::Somewhere]), rng.draw() as u8);
        tally.see_number(told.number);
    });
    tally.expect(40, &NUMBERS);
    tally.expect(1_000, &["0", "9", "19"]);
}

// ---- policies that change while people work

/// The ledger with a zero line for each user added.
fn grown(mut ledger: Vec<u8>, users: u32) -> Vec<u8> {
    ledger.resize(LINE * users as usize, 0);
    ledger
}

/// Some calls of a run by both; the ledger moves on.
fn worked(rng: &mut Rng, image: &[u8], policy: &Policy, ledger: &mut Vec<u8>, tally: &mut Tally) -> Vec<(Call, u64)> {
    let judged = judge(image);
    let mut played = Vec::new();
    for _ in 0..rng.below(14) {
        let call =
            if rng.one_in(3) { Call::Open { user: rng.below(policy.users as u64) } } else { call::any(rng, policy, ledger) };
        let reply = step(&judged, image, ledger, &call, Empty::Null, 0x66).unwrap_or_else(|text| panic!("{call:?}: {text}"));
        tally.see_number(reply.number);
        played.push((call, reply.number));
    }
    played
}

/// A first policy of a site, at times with limits.
fn first(rng: &mut Rng) -> Draft {
    let size = rng.pick(&[policy::TINY, policy::SMALL, policy::SMALL, policy::MIDDLE]);
    if rng.one_in(3) {
        return policy::limited(rng);
    }
    policy::policy(rng, size)
}

/// A change that stops nobody who was not stopped before.
fn quiet(way: Change) -> bool {
    use change::Entry::{Exclusion, Grant, Limit};
    let entries =
        [Change::Gains(Grant), Change::Loses(Grant), Change::Gains(Limit), Change::Loses(Limit), Change::Loses(Exclusion)];
    entries.contains(&way) || matches!(way, Change::UsersAdded | Change::RolesAdded | Change::PermissionsAdded)
}

#[test]
fn a_change_stops_whom_the_call_told_and_nobody_else() {
    let ways = change::ways();
    let tally = spread("changes with windows open", 6_000, |rng, tally| {
        let mut draft = first(rng);
        let mut image = words::bytes(&draft.words());
        let mut ledger = ledger::ledger(rng, &policy::accepted(&image), 0);
        let mut old = told(&image, &ledger);
        for _ in 0..4 {
            let way = rng.pick(&ways);
            draft = change::change(rng, &draft, way);
            image = words::bytes(&draft.words());
            let (policy, before) = (policy::accepted(&image), ledger.len() / LINE);
            ledger = grown(ledger, draft.users);
            let now = told(&image, &ledger);
            (before..policy.users).for_each(|user| assert!(!names(&now, user), "added user {user} is stopped by {way:?}"));
            if quiet(way) {
                assert!((0..policy.users).all(|user| names(&old, user) || !names(&now, user)), "{way:?} stops somebody");
                tally.see("quiet changes");
            }
            let lines = ledger.clone();
            for (call, number) in worked(rng, &image, &policy, &mut ledger, tally) {
                let user = call.user() as usize;
                if user < policy.users && names(&now, user) {
                    assert_eq!(number, 11, "{call:?} of a stopped user");
                } else if policy.limits.is_empty() || !call.is_ask() {
                    assert_ne!(number, 11, "{call:?} of a user who is not stopped");
                }
            }
            for user in (0..policy.users).filter(|user| names(&now, *user)) {
                assert_eq!(ledger[LINE * user..LINE * (user + 1)], lines[LINE * user..LINE * (user + 1)]);
            }
            tally.see(&format!("{way:?}"));
            if now.extra > old.extra {
                tally.see(&format!("{way:?} stops"));
            }
            old = now;
        }
    });
    let names: Vec<String> = ways.iter().map(|way| format!("{way:?}")).collect();
    tally.expect(500, &names.iter().map(String::as_str).collect::<Vec<_>>());
    use change::Entry::{Assignment, Exclusion, Senior};
    for way in [Change::Loses(Assignment), Change::Loses(Senior), Change::Gains(Exclusion), Change::UserLeaves] {
        tally.expect(100, &[&format!("{way:?} stops")]);
    }
    tally.expect(1_000, &["0", "11", "13", "20", "quiet changes"]);
}

/// What a run tells one user.
fn told_to(user: usize, calls: &[Call], played: Vec<Played>) -> Vec<Played> {
    calls.iter().zip(played).filter(|(call, _)| call.user() == user as u64).map(|(_, told)| told).collect()
}

/// A run by both on the ledger, which moves on.
fn run_on(image: &[u8], ledger: &mut Vec<u8>, calls: &[Call]) -> Vec<Played> {
    let played = play(&Run { image: image.to_vec(), ledger: ledger.clone(), calls: calls.to_vec(), empty: Empty::Null });
    for call in calls {
        kit::play(Empty::Null, image, ledger, call, &mut vec![0; call.room()]);
    }
    played
}

#[test]
fn a_user_is_told_the_same_over_changes_whatever_the_others_do() {
    let tally = spread("histories of one user", 2_000, |rng, tally| {
        let mut draft = policy::of_several(rng);
        let user = rng.place(draft.users as usize);
        let mut images = [words::bytes(&draft.words()), words::bytes(&draft.others_redrawn(rng, user as u32).words())];
        let mut ledgers =
            [ledger::ledger(rng, &policy::accepted(&images[0]), 6), ledger::ledger(rng, &policy::accepted(&images[1]), 2)];
        let line = ledgers[0][LINE * user..LINE * (user + 1)].to_vec();
        ledgers[1][LINE * user..LINE * (user + 1)].copy_from_slice(&line);
        for _ in 0..4 {
            let policy = policy::accepted(&images[0]);
            let calls: Vec<Call> = (0..10).map(|_| call::any(rng, &policy, &ledgers[0])).collect();
            let mut others: Vec<Call> = (0..6).map(|_| call::any(rng, &policy, &ledgers[1])).collect();
            others.retain(|call| call.user() != user as u64);
            let own: Vec<Call> = calls.iter().filter(|call| call.user() == user as u64).cloned().collect();
            let mut other_calls = own;
            other_calls.extend(others);
            let one = told_to(user, &calls, run_on(&images[0], &mut ledgers[0], &calls));
            let other = told_to(user, &other_calls, run_on(&images[1], &mut ledgers[1], &other_calls));
            assert_eq!(one, other, "user {user}");
            one.iter().for_each(|played| tally.see_number(played.reply.number));
            let way = rng.pick(&change::ways());
            if way != Change::Gains(change::Entry::Limit) {
                draft = change::change(rng, &draft, way);
            }
            images = [words::bytes(&draft.words()), words::bytes(&draft.others_redrawn(rng, user as u32).words())];
            ledgers = ledgers.map(|ledger| grown(ledger, draft.users));
        }
    });
    tally.expect(150, &["0", "11", "13", "20"]);
}

#[test]
fn the_largest_call_fits_a_stack_of_64_kib() {
    let image = policy::largest();
    let mut ledger = ledger::ledger(&mut Rng::new(64), &policy::accepted(&image), 0);
    ledger[LINE * 63 + 1] = 1;
    let run = move || {
        let mut users = [0xA5; USERS];
        (kit::stopped(Empty::Somewhere, &image, &ledger, &mut users), users)
    };
    let thread = std::thread::Builder::new().stack_size(64 * 1024).spawn(run).expect("a thread starts");
    assert_eq!(thread.join().expect("the call returns"), (256, (1u64 << 63).to_le_bytes()));
}
