//! Scripts for the program: readable lines of every form, and every kind of unreadable one.

use super::{call, Rng};
use crate::solver::calls::Call;
use crate::solver::line::LINE;
use crate::solver::policy::Policy;

/// A bound as a hex number, at times with leading zeros, letters of either size.
fn hex(rng: &mut Rng, bytes: &[u8]) -> String {
    let digits: String = bytes.iter().rev().map(|byte| format!("{byte:02x}")).collect();
    let short = digits.trim_start_matches('0');
    let text = match rng.below(4) {
        0 if digits.len() <= 64 => digits.clone(),
        1 => format!("0{short}"),
        _ if short.is_empty() => "0".to_string(),
        _ => short.to_string(),
    };
    if rng.one_in(3) {
        return text.to_uppercase();
    }
    text
}

/// A decimal, at times with leading zeros.
fn decimal(rng: &mut Rng, number: u64) -> String {
    if rng.one_in(8) {
        return format!("{number:09}");
    }
    number.to_string()
}

/// A call as a line, readable unless a number has more digits than a line may give it; the program has no line for an
/// explain, a clause text or an obstacle.
fn text(rng: &mut Rng, call: &Call) -> String {
    match call {
        Call::Open { user } => format!("open {}", decimal(rng, *user)),
        Call::Close { user, session } => format!("close {} {}", decimal(rng, *user), decimal(rng, *session)),
        Call::Show { user, session, .. } => format!("show {} {}", decimal(rng, *user), decimal(rng, *session)),
        Call::Ask { user, session, lower, upper, objectives, .. } => {
            let asked = format!("ask {} {} {} {}", decimal(rng, *user), decimal(rng, *session), hex(rng, lower), hex(rng, upper));
            format!("{asked} {} {}", decimal(rng, objectives.0), decimal(rng, objectives.1))
        }
        Call::ShortAsk { user, session, lower, upper, .. } => {
            format!("ask {} {} {} {}", decimal(rng, *user), decimal(rng, *session), hex(rng, lower), hex(rng, upper))
        }
        Call::Explain { user, session, permission } => {
            format!("explain {} {} {}", decimal(rng, *user), decimal(rng, *session), decimal(rng, *permission))
        }
        Call::Clauses { user, session, lower, upper, .. } => {
            format!("clauses {} {} {} {}", decimal(rng, *user), decimal(rng, *session), hex(rng, lower), hex(rng, upper))
        }
        Call::Obstacle { user, session, lower, upper, .. } => {
            format!("obstacle {} {} {} {}", decimal(rng, *user), decimal(rng, *session), hex(rng, lower), hex(rng, upper))
        }
    }
}

/// Lines that no form reads, whatever the policy.
pub const UNREADABLE: [&[u8]; 47] = [
    b"",
    b" ",
    b"open",
    b"open ",
    b" open 0",
    b"open 0 ",
    b"open  0",
    b"open\t0",
    b"open 0\r",
    b"open 0\0",
    b"open +0",
    b"open -1",
    b"open 0x0",
    b"open a",
    b"Open 0",
    b"OPEN 0",
    b"opens 0",
    b"open 0 0",
    b"open 1234567890",
    b"open 0000000000",
    b"open 0.0",
    b"close 0",
    b"close 0 0 0",
    b"close 0 f",
    b"close 0  0",
    b"show 0",
    b"show 0 0 0",
    b"show 0 0 ",
    b"check",
    b"explain 0 0 0",
    b"widen",
    b"narrow",
    b"ask 0 0",
    b"ask 0 0 3",
    b"ask 0 0 3 1f 1",
    b"ask 0 0 3 1f 1 0 0",
    b"ask 0 0 3 1g",
    b"ask 0 0 0x3 1f",
    b"ask 0 0 -3 1f",
    b"ask 0 0 3 1f 1 a",
    b"ask 0 0 3  1f",
    b"ask 0 0 3 1f 1 1234567890",
    b"ask 0 0 \xc3\xa9 1f",
    b"\xff\xfe",
    b"\0",
    b"# open 0",
    b"open 0 # one",
];

/// An unreadable line: one of the list, a hex number of 65 digits, or a readable line with a byte changed, put in or
/// taken out.
fn unreadable(rng: &mut Rng, readable: &str) -> Vec<u8> {
    let mut line = readable.as_bytes().to_vec();
    let at = rng.place(line.len());
    match rng.below(6) {
        0..=2 => return rng.pick(&UNREADABLE).to_vec(),
        3 => return format!("ask 0 0 {:065x} 1f", rng.below(2)).into_bytes(),
        4 => line[at] = rng.pick(b" \r\t\0\x7f\x80\xffgG:/@`-+x,;"),
        _ => line.insert(at, rng.pick(b" \r\t\0\x80\xff")),
    }
    line
}

/// A script of some lines under a policy, with or without a final newline.
pub fn script(rng: &mut Rng, policy: &Policy, lines: usize) -> Vec<u8> {
    let open_all = vec![0xff; LINE * policy.users];
    let mut script = Vec::new();
    for _ in 0..lines {
        let call =
            if rng.one_in(4) { Call::Open { user: rng.below(policy.users as u64) } } else { call::any(rng, policy, &open_all) };
        let line = text(rng, &call);
        let line = if rng.one_in(6) { unreadable(rng, &line) } else { line.into_bytes() };
        script.extend(line);
        script.push(b'\n');
    }
    if rng.one_in(4) {
        script.pop();
    }
    script
}
