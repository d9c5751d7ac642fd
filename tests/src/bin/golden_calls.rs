//! Prints generated calls with the separate solver's answers, a line each, for a binding that plays them again.
//!
//! golden_calls RUNS: so many images, each with the calls on the image and a run of calls on a ledger. The lines are
//! 'image HEX', 'ledger HEX' and 'old HEX' (what the calls behind them take), 'NAME ARGUMENT.. = NUMBER EXTRA FILLED'
//! and 'after HEX' (the ledger behind a run). Bytes are in hex, '-' where there are none. NUTRAMEZA_SEED names another
//! seed.

use nutrameza_tests::compare::seed;
use nutrameza_tests::gen::{call, damage, hierarchy, ledger, policy, Rng};
use nutrameza_tests::solver::calls::{play, Call, ANSWER};
use nutrameza_tests::solver::image::{judge, Judged};
use nutrameza_tests::solver::loops::CHAIN;
use nutrameza_tests::solver::moves::{carry, Move, BOTH};
use nutrameza_tests::solver::obstacle::OBSTACLE;
use nutrameza_tests::solver::policy::Policy;
use nutrameza_tests::solver::turned::{turn, Way, TABLE};
use nutrameza_tests::solver::{loops, stopped, tidy, turned};
use nutrameza_tests::words;
use std::io::Write;

/// Calls on a ledger in a run.
const CALLS: usize = 12;

fn hex(bytes: &[u8]) -> String {
    if bytes.is_empty() {
        return "-".to_string();
    }
    bytes.iter().map(|byte| format!("{byte:02x}")).collect()
}

/// A call's line: what it answers, and what it fills.
fn line(call: &str, number: u64, extra: u64, filled: Option<&[u8]>) -> String {
    format!("{call} = {number} {extra} {}\n", filled.map_or("-".to_string(), hex))
}

/// An image with the policy that guides the calls under it: in good order mostly, else damaged, looped or reaching far.
fn image_and_policy(rng: &mut Rng) -> (Vec<u8>, Policy) {
    let image = words::bytes(&policy::any(rng).words());
    let policy = judge(&image).expect("a policy in good order is accepted");
    match rng.below(12) {
        0 => (damage::image(rng), policy),
        1 => (words::bytes(&hierarchy::hierarchy(rng).words()), policy),
        2 => (words::bytes(&hierarchy::reaching(rng).words()), policy),
        _ => (image, policy),
    }
}

/// The calls on an image alone, and those on tables.
fn on_image(rng: &mut Rng, image: &[u8], judged: &Judged) -> String {
    let (number, extra) = judged.as_ref().map_or_else(|refused| (refused.number, refused.extra as u64), |_| (0, 0));
    let mut lines = line("check", number, extra, None);
    let found = loops::find(image, CHAIN);
    lines += &line("loop", found.number, found.extra, found.bytes.as_ref().map(|chain| &chain[..]));
    let room = if rng.one_in(4) { rng.place(image.len() + 1) } else { image.len() };
    let written = tidy::write(image, room);
    lines += &line(&format!("tidy {room}"), written.number, written.extra, written.bytes.as_deref());
    let table = turned::table(image, TABLE);
    lines += &line("table", table.number, table.extra, table.bytes.as_deref());
    let source = table.bytes.unwrap_or_else(|| rng.bytes(TABLE));
    let size = if rng.one_in(8) { rng.place(TABLE) } else { TABLE };
    for (name, way) in [("turn", Way::Turn), ("unturn", Way::Unturn)] {
        let turned = turn(way, &source[..size], TABLE);
        lines += &line(&format!("{name} {}", hex(&source[..size])), turned.number, turned.extra, turned.bytes.as_deref());
    }
    lines
}

/// The moves and the stopped call, on ledgers that fit mostly.
fn on_ledgers(rng: &mut Rng, image: &[u8], judged: &Judged, policy: &Policy, ledger: &[u8]) -> String {
    let told = stopped::stopped(judged, ledger, 8);
    let mut lines = line("stopped", told.number, told.extra, told.bytes.as_ref().map(|users| &users[..]));
    let users = u32::from_le_bytes(image.get(..4).map_or([0; 4], |head| [head[0], head[1], head[2], head[3]])) >> 21 & 127;
    for way in BOTH {
        let (before, after) = way.lines();
        let mut old = ledger::ledger_of(rng, policy, way.sessions().0, 9);
        if rng.one_in(8) {
            ledger::misfit_of(rng, &mut old, before);
        }
        let carried = carry(way, judged, &old, after * users as usize);
        let name = if way == Move::Widen { "widen" } else { "narrow" };
        lines += &format!("old {}\n", hex(&old));
        lines += &line(name, carried.number, carried.extra, carried.bytes.as_deref());
    }
    lines
}

/// A call with the one buffer length that a binding gives it, and its line's first words.
fn named(mut call: Call) -> (Call, String) {
    let text = match &mut call {
        Call::Open { user } => format!("open {user}"),
        Call::Close { user, session } => format!("close {user} {session}"),
        Call::Explain { user, session, permission } => format!("explain {user} {session} {permission}"),
        Call::Show { user, session, room } => {
            *room = ANSWER;
            format!("show {user} {session}")
        }
        Call::ShortAsk { user, session, lower, upper, room } => {
            *room = ANSWER;
            format!("short_ask {user} {session} {} {}", hex(lower), hex(upper))
        }
        Call::Obstacle { user, session, lower, upper, room } => {
            *room = OBSTACLE;
            format!("obstacle {user} {session} {} {}", hex(lower), hex(upper))
        }
        Call::Ask { user, session, lower, upper, objectives, room } => {
            *room = ANSWER;
            format!("ask {user} {session} {} {} {} {}", hex(lower), hex(upper), objectives.0, objectives.1)
        }
        Call::Clauses { user, session, lower, upper, objectives, room } => {
            let (first, second) = objectives;
            format!("clauses {user} {session} {} {} {first} {second} {room}", hex(lower), hex(upper))
        }
    };
    (call, text)
}

/// A run of calls on a ledger, and the ledger behind it.
fn on_a_run(rng: &mut Rng, judged: &Judged, policy: &Policy, ledger: &mut [u8]) -> String {
    let mut lines = String::new();
    for _ in 0..CALLS {
        let drawn = match rng.below(12) {
            0 => call::clauses(rng, policy, ledger),
            1..=3 => call::plain(rng, policy),
            _ => call::any(rng, policy, ledger),
        };
        let (call, text) = named(drawn);
        let reply = play(judged, ledger, &call);
        lines += &line(&text, reply.number, reply.extra, reply.answer.as_deref());
    }
    lines + &format!("after {}\n", hex(ledger))
}

fn main() -> std::io::Result<()> {
    let runs: u64 = std::env::args().nth(1).and_then(|word| word.parse().ok()).expect("golden_calls RUNS");
    let mut out = std::io::BufWriter::new(std::io::stdout().lock());
    for run in 0..runs {
        let mut rng = Rng::of_case(seed(), run);
        let (image, policy) = image_and_policy(&mut rng);
        let judged = judge(&image);
        let damaged = rng.pick(&[0, 2, 8]);
        let mut ledger = ledger::ledger(&mut rng, &policy, damaged);
        if rng.one_in(12) {
            ledger::misfit(&mut rng, &mut ledger);
        }
        let mut lines = format!("image {}\n", hex(&image)) + &on_image(&mut rng, &image, &judged);
        lines += &format!("ledger {}\n", hex(&ledger));
        lines += &on_ledgers(&mut rng, &image, &judged, &policy, &ledger);
        lines += &on_a_run(&mut rng, &judged, &policy, &mut ledger);
        out.write_all(lines.as_bytes())?;
    }
    out.flush()
}
