//! Calls side by side on one ledger, through the C interface: each call on the ledger with the other lines zeroed, and
//! the calls of several users in other orders, without limits and with them.

use nutrameza_tests::compare::{leaves, spread, Left};
use nutrameza_tests::gen::policy::Draft;
use nutrameza_tests::gen::{call, ledger, policy, Rng};
use nutrameza_tests::kit::Empty;
use nutrameza_tests::solver::calls::Call;
use nutrameza_tests::solver::line::LINE;
use nutrameza_tests::solver::policy::Policy;
use nutrameza_tests::{ward, words};

/// The policy without its limits.
fn unlimited(mut draft: Draft) -> Draft {
    draft.entries.retain(|entry| entry[0] >> 28 != 7);
    draft
}

/// The ledger with every line zeroed but that of the user.
fn alone(ledger: &[u8], user: usize) -> Vec<u8> {
    let zeroed = |line: (usize, &[u8])| if line.0 == user { line.1.to_vec() } else { vec![0; line.1.len()] };
    ledger.chunks(LINE).enumerate().flat_map(zeroed).collect()
}

/// A user's line, none where there is none.
fn line_of(ledger: &[u8], user: u64) -> Vec<u8> {
    ledger.chunks_exact(LINE).nth(user as usize).unwrap_or_default().to_vec()
}

/// What the user of a call is told: the number returned, the answer buffer and the line after it.
fn told(left: &Left, call: &Call) -> (u64, Vec<u8>, Vec<u8>) {
    (left.returned, left.answer.clone(), line_of(&left.ledger, call.user()))
}

/// A call of any sort, a clause text among them.
fn any_call(rng: &mut Rng, policy: &Policy, ledger: &[u8]) -> Call {
    if rng.one_in(8) {
        return call::clauses(rng, policy, ledger);
    }
    call::any(rng, policy, ledger)
}

/// The word for a call.
fn name(call: &Call) -> String {
    format!("{call:?}").chars().take_while(|letter| letter.is_alphabetic()).collect()
}

#[test]
fn a_call_reads_its_users_line_alone() {
    let tally = spread("calls alone", 20_000, |rng, tally| {
        let limited = rng.one_in(2);
        let draft = if limited { policy::limited(rng) } else { unlimited(policy::any(rng)) };
        let image = words::bytes(&draft.words());
        let policy = policy::accepted(&image);
        let damaged = rng.pick(&[0, 4]);
        let mut ledger = ledger::ledger(rng, &policy, damaged);
        if rng.one_in(20) {
            ledger::misfit(rng, &mut ledger);
        }
        let call = any_call(rng, &policy, &ledger);
        let user = call.user().min(policy.users as u64) as usize;
        let beside = leaves(&image, &ledger, &call, Empty::Null);
        let by_itself = leaves(&image, &alone(&ledger, user), &call, Empty::Null);
        let same = told(&beside, &call) == told(&by_itself, &call);
        if limited && call.is_ask() {
            tally.see(if same { "asks under limits, the same" } else { "asks under limits that other lines decide" });
        } else {
            assert!(same, "{call:?} on {image:02x?}: {beside:02x?} beside others, {by_itself:02x?} alone");
            tally.see(&name(&call));
        }
        tally.see_number(beside.returned % 256);
        for (other, line) in ledger.chunks_exact(LINE).enumerate().filter(|(other, _)| *other != user) {
            assert_eq!(line_of(&beside.ledger, other as u64), line, "{call:?} changes the line of {other}");
        }
    });
    tally.expect(200, &["Open", "Close", "Show", "Ask", "ShortAsk", "Explain", "Clauses"]);
    tally.expect(100, &["asks under limits, the same", "asks under limits that other lines decide"]);
    tally.expect(100, &["0", "9", "10", "11", "12", "13", "14", "16", "19", "20"]);
}

/// The calls in another order, those of each user in the same one.
fn interleaved(rng: &mut Rng, calls: &[Call]) -> Vec<Call> {
    let mut users: Vec<u64> = calls.iter().map(Call::user).collect();
    rng.shuffle(&mut users);
    let mut left: Vec<Call> = calls.to_vec();
    users
        .iter()
        .map(|user| {
            let place = left.iter().position(|call| call.user() == *user).expect("each user makes as many calls");
            left.remove(place)
        })
        .collect()
}

/// What each user is told by the calls of a run, in order, and the ledger that it leaves.
type Told = Vec<(u64, u64, Vec<u8>, Vec<u8>)>;

fn run(image: &[u8], first: &[u8], calls: &[Call]) -> (Told, Vec<u8>) {
    let (mut ledger, mut all) = (first.to_vec(), Told::new());
    for call in calls {
        let left = leaves(image, &ledger, call, Empty::Null);
        let (returned, answer, line) = told(&left, call);
        all.push((call.user(), returned, answer, line));
        ledger = left.ledger;
    }
    all.sort_by_key(|told| told.0);
    (all, ledger)
}

/// Calls of all users of a policy on a ledger, opens among them.
fn busy(rng: &mut Rng, policy: &Policy, ledger: &[u8], asks: bool) -> Vec<Call> {
    let draw = |_| {
        if rng.one_in(4) {
            return Call::Open { user: rng.below(policy.users as u64) };
        }
        if asks {
            return any_call(rng, policy, ledger);
        }
        call::plain(rng, policy)
    };
    (0..18).map(draw).collect()
}

#[test]
fn calls_of_different_users_may_be_made_in_any_order_without_limits() {
    let tally = spread("interleaved runs", 4_000, |rng, tally| {
        let draft = unlimited(policy::of_several(rng));
        let image = words::bytes(&draft.words());
        let policy = policy::accepted(&image);
        let first = ledger::ledger(rng, &policy, 6);
        let calls = busy(rng, &policy, &first, true);
        let (one, left) = run(&image, &first, &calls);
        for _ in 0..3 {
            let other = interleaved(rng, &calls);
            assert_eq!(run(&image, &first, &other), (one.clone(), left.clone()), "{other:?}");
            tally.see(if other == calls { "the same order" } else { "another order" });
        }
        one.iter().for_each(|told| tally.see_number(told.1 % 256));
    });
    tally.expect(5_000, &["another order"]);
    tally.expect(300, &["0", "10", "11", "12", "13", "14", "20"]);
}

#[test]
fn under_limits_the_order_of_asks_matters_and_that_of_other_calls_does_not() {
    let tally = spread("interleaved runs under limits", 4_000, |rng, tally| {
        let image = words::bytes(&policy::limited(rng).words());
        let policy = policy::accepted(&image);
        let damaged = rng.pick(&[0, 0, 9]);
        let first = ledger::ledger(rng, &policy, damaged);
        let asks = rng.one_in(2);
        let calls = busy(rng, &policy, &first, asks);
        let other = interleaved(rng, &calls);
        let same = run(&image, &first, &calls) == run(&image, &first, &other);
        assert!(same || asks, "{calls:?} and {other:?}");
        tally.see(match (asks, same) {
            (false, _) => "without asks",
            (true, true) => "with asks, the same",
            (true, false) => "with asks, not the same",
        });
    });
    tally.expect(100, &["without asks", "with asks, the same", "with asks, not the same"]);
}

#[test]
fn of_two_who_ask_for_the_one_place_the_first_gets_it() {
    let list = [words::head(2, 1, 1), words::assignment(0, 0), words::assignment(1, 0), words::grant(0, 0), words::limit(0, 2)];
    let image = words::bytes(&words::closed(list.to_vec()));
    let ask = |user| Call::ShortAsk { user, session: 0, lower: ward::bound(1), upper: ward::bound(1), room: 40 };
    let open = |user| Call::Open { user };
    for first in [0, 1] {
        let calls = [open(0), open(1), ask(first), ask(1 - first)];
        let mut ledger = vec![0; 2 * LINE];
        let numbers: Vec<u64> = calls
            .iter()
            .map(|call| {
                let left = leaves(&image, &ledger, call, Empty::Null);
                ledger = left.ledger;
                left.returned % 256
            })
            .collect();
        assert_eq!(numbers, [0, 0, 0, 20]);
        let second = 1 - first as usize;
        assert_eq!(leaves(&image, &ledger, &ask(second as u64), Empty::Null).returned, 20);
        assert_eq!(leaves(&image, &alone(&ledger, second), &ask(second as u64), Empty::Null).returned, 0);
    }
}
