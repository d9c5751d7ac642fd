//! The separate solver of tests/src as the fuzzer's judge: a call's answer, and every byte that it left, beside the
//! solver's.

#[path = "../src/solver/mod.rs"]
#[allow(dead_code)]
mod solver;

use solver::calls::{self, Call};
use solver::image::{judge, Judged};
use solver::moves::{carry, Move};
use solver::turned::{self, Way};
use solver::{loops, stopped, tidy};
use std::cell::RefCell;

/// Bytes of the C side, possibly none behind a null pointer.
#[repr(C)]
pub struct Bytes {
    at: *const u8,
    length: usize,
}

impl Bytes {
    fn slice(&self) -> &[u8] {
        if self.length == 0 {
            return &[];
        }
        // SAFETY: the C side gives pointer and length of a buffer that nobody writes while the oracle runs.
        unsafe { std::slice::from_raw_parts(self.at, self.length) }
    }
}

/// A call as it was made: `ledger` is the ledger before it, or the source of a turn; `out` what its buffer held before
/// it.
#[repr(C)]
pub struct Asked {
    kind: u32,
    image: Bytes,
    ledger: Bytes,
    lower: Bytes,
    upper: Bytes,
    out: Bytes,
    user: u64,
    session: u64,
    permission: u64,
    aims: [u64; 2],
}

/// What it returned and left: image, ledger and buffer after it.
#[repr(C)]
pub struct Left {
    returned: u64,
    image: Bytes,
    ledger: Bytes,
    out: Bytes,
}

/// What the solver says: the number returned, what fills the front of the buffer, and the ledger.
struct Said {
    returned: u64,
    filled: Option<Vec<u8>>,
    ledger: Vec<u8>,
}

thread_local! {
    /// The image judged last: the calls of one input share it.
    static JUDGED: RefCell<Option<(Vec<u8>, Judged)>> = const { RefCell::new(None) };
}

fn with_judged<T>(image: &[u8], then: impl FnOnce(&Judged) -> T) -> T {
    JUDGED.with_borrow_mut(|last| {
        if last.as_ref().is_none_or(|(known, _)| known != image) {
            *last = Some((image.to_vec(), judge(image)));
        }
        then(&last.as_ref().expect("it was just put there").1)
    })
}

/// A call on a session, if it is one: the kinds are in the order of the header.
fn session_call(asked: &Asked) -> Option<Call> {
    let (user, session, room) = (asked.user, asked.session, asked.out.length);
    let (lower, upper) = (asked.lower.slice().to_vec(), asked.upper.slice().to_vec());
    let objectives = (asked.aims[0], asked.aims[1]);
    Some(match asked.kind {
        6 => Call::Open { user },
        7 => Call::Close { user, session },
        8 => Call::Ask { user, session, lower, upper, objectives, room },
        9 => Call::ShortAsk { user, session, lower, upper, room },
        10 => Call::Show { user, session, room },
        11 => Call::Explain { user, session, permission: asked.permission },
        12 => Call::Obstacle { user, session, lower, upper, room },
        16 => Call::Clauses { user, session, lower, upper, objectives, room },
        _ => return None,
    })
}

fn said(asked: &Asked) -> Said {
    let (image, before, room) = (asked.image.slice(), asked.ledger.slice(), asked.out.length);
    let kept = |returned, filled| Said { returned, filled, ledger: before.to_vec() };
    if let Some(call) = session_call(asked) {
        let mut ledger = before.to_vec();
        let reply = with_judged(image, |judged| calls::play(judged, &mut ledger, &call));
        return Said { returned: reply.returned(), filled: reply.answer, ledger };
    }
    match asked.kind {
        0 => kept(with_judged(image, |judged| judged.as_ref().map_or_else(|no| no.number + 256 * no.extra as u64, |_| 0)), None),
        1 => {
            let found = loops::find(image, room);
            kept(found.returned(), found.bytes.map(|chain| chain.to_vec()))
        }
        2 => {
            let written = tidy::write(image, room);
            kept(written.returned(), written.bytes)
        }
        3 => {
            let filled = turned::table(image, room);
            kept(filled.returned(), filled.bytes)
        }
        4 | 5 => {
            let filled = turned::turn(if asked.kind == 4 { Way::Turn } else { Way::Unturn }, before, room);
            kept(filled.returned(), filled.bytes)
        }
        13 => {
            let told = with_judged(image, |judged| stopped::stopped(judged, before, room));
            kept(told.returned(), told.bytes.map(|users| users.to_vec()))
        }
        _ => {
            let way = if asked.kind == 14 { Move::Widen } else { Move::Narrow };
            let carried = with_judged(image, |judged| carry(way, judged, before, room));
            kept(carried.returned(), carried.bytes)
        }
    }
}

/// What differs between what a call left and what the solver says, if anything does.
fn differs(asked: &Asked, left: &Left) -> Option<String> {
    let said = said(asked);
    let parts = |returned: u64| format!("{} + 256 * {}", returned % 256, returned / 256);
    if left.returned != said.returned {
        return Some(format!("returned {}, the solver {}", parts(left.returned), parts(said.returned)));
    }
    if left.ledger.slice() != said.ledger {
        return Some("the ledger differs".to_string());
    }
    let mut out = asked.out.slice().to_vec();
    if let Some(filled) = &said.filled {
        out[..filled.len()].copy_from_slice(filled);
    }
    if left.out.slice() != out {
        return Some("the buffer differs".to_string());
    }
    (left.image.slice() != asked.image.slice()).then(|| "the image differs".to_string())
}

/// 0 where the call answered as the solver does; else 1, and what differs is printed.
///
/// # Safety
/// Both are structures of the C side whose pointers and lengths are right.
#[no_mangle]
pub unsafe extern "C" fn nutrameza_oracle(asked: *const Asked, left: *const Left) -> i32 {
    let (asked, left) = (&*asked, &*left);
    match differs(asked, left) {
        None => 0,
        Some(text) => {
            eprintln!("call {}: {text}", asked.kind);
            1
        }
    }
}
