//! The program: a script's lines to calls, replies to output lines.

use super::calls::{play, Call, Reply, ANSWER};
use super::image::judge;
use super::line::LINE;

/// What the program prints for an image file's bytes (none if it cannot be read) and a script.
pub fn output(image: Option<&[u8]>, script: &[u8]) -> Vec<u8> {
    let judged = judge(image.unwrap_or_default());
    let users = judged.as_ref().map_or(0, |policy| policy.users);
    let mut ledger = vec![0u8; LINE * users];
    let mut printed = String::new();
    for (place, line) in lines(script).into_iter().enumerate() {
        let number = place + 1;
        match call(line) {
            None => printed += &format!("{number} 21 0 0 0\n"),
            Some(call) => printed += &format!("{number} {}\n", reply_text(&play(&judged, &mut ledger, &call))),
        }
    }
    printed.into_bytes()
}

/// The lines of a script: each ends at a newline or at the end; nothing after the last newline is no line.
fn lines(script: &[u8]) -> Vec<&[u8]> {
    let mut lines: Vec<&[u8]> = script.split(|byte| *byte == b'\n').collect();
    if lines.last().is_some_and(|line| line.is_empty()) {
        lines.pop();
    }
    lines
}

/// The call that a line writes, if it is readable.
pub fn call(line: &[u8]) -> Option<Call> {
    let words: Vec<&[u8]> = line.split(|byte| *byte == b' ').collect();
    let room = ANSWER;
    match words[..] {
        [b"open", user] => Some(Call::Open { user: decimal(user)? }),
        [b"close", user, session] => Some(Call::Close { user: decimal(user)?, session: decimal(session)? }),
        [b"show", user, session] => Some(Call::Show { user: decimal(user)?, session: decimal(session)?, room }),
        [b"ask", user, session, lower, upper] => {
            let (user, session) = (decimal(user)?, decimal(session)?);
            Some(Call::ShortAsk { user, session, lower: bound(lower)?, upper: bound(upper)?, room })
        }
        [b"ask", user, session, lower, upper, first, second] => {
            let (user, session) = (decimal(user)?, decimal(session)?);
            let objectives = (decimal(first)?, decimal(second)?);
            Some(Call::Ask { user, session, lower: bound(lower)?, upper: bound(upper)?, objectives, room })
        }
        _ => None,
    }
}

/// A decimal of 1 to 9 digits.
fn decimal(word: &[u8]) -> Option<u64> {
    if word.is_empty() || word.len() > 9 {
        return None;
    }
    let mut number = 0;
    for byte in word {
        number = 10 * number + u64::from(digit(*byte, 10)?);
    }
    Some(number)
}

/// A hex number of 1 to 64 digits as the 32 bytes of a bound.
fn bound(word: &[u8]) -> Option<Vec<u8>> {
    if word.is_empty() || word.len() > 64 {
        return None;
    }
    let mut bytes = vec![0u8; 32];
    for (place, byte) in word.iter().rev().enumerate() {
        bytes[place / 2] += digit(*byte, 16)? * if place % 2 == 0 { 1 } else { 16 };
    }
    Some(bytes)
}

/// A digit below a base, letters of either size.
fn digit(byte: u8, base: u8) -> Option<u8> {
    let digit = match byte {
        b'0'..=b'9' => byte - b'0',
        b'a'..=b'f' => byte - b'a' + 10,
        b'A'..=b'F' => byte - b'A' + 10,
        _ => return None,
    };
    if digit < base {
        Some(digit)
    } else {
        None
    }
}

/// Number, extra, roles and permissions, the last two 0 unless an ask or show is done.
fn reply_text(reply: &Reply) -> String {
    let answer = reply.answer.as_deref().unwrap_or(&[0; ANSWER]);
    format!("{} {} {} {}", reply.number, reply.extra, hex(&answer[..8]), hex(&answer[8..]))
}

/// A number's bytes, the lowest first, in small hex without leading zeros.
fn hex(bytes: &[u8]) -> String {
    let digits: String = bytes.iter().rev().map(|byte| format!("{byte:02x}")).collect();
    match digits.trim_start_matches('0') {
        "" => "0".to_string(),
        digits => digits.to_string(),
    }
}
