//! The kit's C interface, as a host sees it: a slice is its pointer, then its length.

use crate::solver::calls::Call;
#[cfg(feature = "calls")]
use crate::solver::moves::Move;
use crate::solver::turned::Way;

mod raw {
    extern "C" {
        pub fn nutrameza_check(image: *const u8, image_len: usize) -> u64;
        pub fn nutrameza_loop(image: *const u8, image_len: usize, chain: *mut u8, chain_len: usize) -> u64;
        pub fn nutrameza_tidy(image: *const u8, image_len: usize, out: *mut u8, out_len: usize) -> u64;
        pub fn nutrameza_table(image: *const u8, image_len: usize, table: *mut u8, table_len: usize) -> u64;
        pub fn nutrameza_turn(source: *const u8, source_len: usize, target: *mut u8, target_len: usize) -> u64;
        pub fn nutrameza_unturn(source: *const u8, source_len: usize, target: *mut u8, target_len: usize) -> u64;
    }

    #[cfg(feature = "calls")]
    extern "C" {
        pub fn nutrameza_open(image: *const u8, image_len: usize, ledger: *mut u8, ledger_len: usize, user: u64) -> u64;
        pub fn nutrameza_close(
            image: *const u8,
            image_len: usize,
            ledger: *mut u8,
            ledger_len: usize,
            user: u64,
            session: u64,
        ) -> u64;
        pub fn nutrameza_show(
            image: *const u8,
            image_len: usize,
            ledger: *const u8,
            ledger_len: usize,
            user: u64,
            session: u64,
            answer: *mut u8,
            answer_len: usize,
        ) -> u64;
        pub fn nutrameza_explain(
            image: *const u8,
            image_len: usize,
            ledger: *const u8,
            ledger_len: usize,
            user: u64,
            session: u64,
            permission: u64,
        ) -> u64;
        pub fn nutrameza_stopped(
            image: *const u8,
            image_len: usize,
            ledger: *const u8,
            ledger_len: usize,
            users: *mut u8,
            users_len: usize,
        ) -> u64;
        pub fn nutrameza_widen(
            image: *const u8,
            image_len: usize,
            old_ledger: *const u8,
            old_ledger_len: usize,
            new_ledger: *mut u8,
            new_ledger_len: usize,
        ) -> u64;
        pub fn nutrameza_narrow(
            image: *const u8,
            image_len: usize,
            old_ledger: *const u8,
            old_ledger_len: usize,
            new_ledger: *mut u8,
            new_ledger_len: usize,
        ) -> u64;
    }

    #[cfg(feature = "asks")]
    extern "C" {
        pub fn nutrameza_ask(
            image: *const u8,
            image_len: usize,
            ledger: *mut u8,
            ledger_len: usize,
            user: u64,
            session: u64,
            lower: *const u8,
            lower_len: usize,
            upper: *const u8,
            upper_len: usize,
            permission_aim: u64,
            role_aim: u64,
            answer: *mut u8,
            answer_len: usize,
        ) -> u64;
        pub fn nutrameza_short_ask(
            image: *const u8,
            image_len: usize,
            ledger: *mut u8,
            ledger_len: usize,
            user: u64,
            session: u64,
            lower: *const u8,
            lower_len: usize,
            upper: *const u8,
            upper_len: usize,
            answer: *mut u8,
            answer_len: usize,
        ) -> u64;
        pub fn nutrameza_clauses(
            image: *const u8,
            image_len: usize,
            ledger: *const u8,
            ledger_len: usize,
            user: u64,
            session: u64,
            lower: *const u8,
            lower_len: usize,
            upper: *const u8,
            upper_len: usize,
            permission_aim: u64,
            role_aim: u64,
            out: *mut u8,
            out_len: usize,
        ) -> u64;
        pub fn nutrameza_obstacle(
            image: *const u8,
            image_len: usize,
            ledger: *const u8,
            ledger_len: usize,
            user: u64,
            session: u64,
            lower: *const u8,
            lower_len: usize,
            upper: *const u8,
            upper_len: usize,
            roles: *mut u8,
            roles_len: usize,
        ) -> u64;
    }
}

/// How a host points at a buffer of no bytes.
#[derive(Clone, Copy, Debug, PartialEq, Eq)]
pub enum Empty {
    Null,
    Somewhere,
}

impl Empty {
    fn read(self, slice: &[u8]) -> *const u8 {
        if slice.is_empty() && self == Empty::Null {
            return std::ptr::null();
        }
        slice.as_ptr()
    }

    fn write(self, slice: &mut [u8]) -> *mut u8 {
        if slice.is_empty() && self == Empty::Null {
            return std::ptr::null_mut();
        }
        slice.as_mut_ptr()
    }
}

/// Makes a call of the library: a slice that it reads or writes is handed over as pointer and length, a number as it
/// is.
macro_rules! call {
    (@ $empty:ident $call:expr, [$($given:expr),*]) => {
        // SAFETY: each pointer and length are those of a slice, or NULL and 0; the slices do not overlap.
        unsafe { $call($($given),*) }
    };
    (@ $empty:ident $call:expr, [$($given:expr),*] reads $slice:expr; $($rest:tt)*) => {
        call!(@ $empty $call, [$($given,)* $empty.read($slice), $slice.len()] $($rest)*)
    };
    (@ $empty:ident $call:expr, [$($given:expr),*] writes $slice:expr; $($rest:tt)*) => {
        call!(@ $empty $call, [$($given,)* $empty.write($slice), $slice.len()] $($rest)*)
    };
    (@ $empty:ident $call:expr, [$($given:expr),*] takes $number:expr; $($rest:tt)*) => {
        call!(@ $empty $call, [$($given,)* $number] $($rest)*)
    };
    ($empty:ident, $call:expr, $($rest:tt)*) => {
        call!(@ $empty $call, [] $($rest)*)
    };
}

/// Check.
pub fn check(empty: Empty, image: &[u8]) -> u64 {
    call!(empty, raw::nutrameza_check, reads image;)
}

/// The loop call.
pub fn find_loop(empty: Empty, image: &[u8], chain: &mut [u8]) -> u64 {
    call!(empty, raw::nutrameza_loop, reads image; writes chain;)
}

/// The tidy call.
pub fn tidy(empty: Empty, image: &[u8], out: &mut [u8]) -> u64 {
    call!(empty, raw::nutrameza_tidy, reads image; writes out;)
}

/// The table call.
pub fn table(empty: Empty, image: &[u8], table: &mut [u8]) -> u64 {
    call!(empty, raw::nutrameza_table, reads image; writes table;)
}

/// A table turned or turned back: the source is read, the target written.
pub fn turn(empty: Empty, way: Way, source: &[u8], target: &mut [u8]) -> u64 {
    let turned = match way {
        Way::Turn => raw::nutrameza_turn,
        Way::Unturn => raw::nutrameza_unturn,
    };
    call!(empty, turned, reads source; writes target;)
}

#[cfg(feature = "calls")]
pub fn open(empty: Empty, image: &[u8], ledger: &mut [u8], user: u64) -> u64 {
    call!(empty, raw::nutrameza_open, reads image; writes ledger; takes user;)
}

#[cfg(feature = "calls")]
pub fn close(empty: Empty, image: &[u8], ledger: &mut [u8], user: u64, session: u64) -> u64 {
    call!(empty, raw::nutrameza_close, reads image; writes ledger; takes user; takes session;)
}

#[cfg(feature = "calls")]
pub fn show(empty: Empty, image: &[u8], ledger: &[u8], user: u64, session: u64, answer: &mut [u8]) -> u64 {
    call!(empty, raw::nutrameza_show, reads image; reads ledger; takes user; takes session; writes answer;)
}

#[cfg(feature = "calls")]
pub fn explain(empty: Empty, image: &[u8], ledger: &[u8], user: u64, session: u64, permission: u64) -> u64 {
    call!(empty, raw::nutrameza_explain, reads image; reads ledger; takes user; takes session; takes permission;)
}

/// The stopped call: the ledger is read, the set of users written.
#[cfg(feature = "calls")]
pub fn stopped(empty: Empty, image: &[u8], ledger: &[u8], users: &mut [u8]) -> u64 {
    call!(empty, raw::nutrameza_stopped, reads image; reads ledger; writes users;)
}

/// A move: the old ledger is read, the new one written.
#[cfg(feature = "calls")]
pub fn carry(empty: Empty, way: Move, image: &[u8], old: &[u8], new: &mut [u8]) -> u64 {
    let moved = match way {
        Move::Widen => raw::nutrameza_widen,
        Move::Narrow => raw::nutrameza_narrow,
    };
    call!(empty, moved, reads image; reads old; writes new;)
}

/// What an ask names beside image, ledger and answer.
#[cfg(feature = "asks")]
pub struct Wish<'a> {
    pub user: u64,
    pub session: u64,
    pub lower: &'a [u8],
    pub upper: &'a [u8],
}

#[cfg(feature = "asks")]
pub fn ask(empty: Empty, image: &[u8], ledger: &mut [u8], wish: &Wish, objectives: (u64, u64), answer: &mut [u8]) -> u64 {
    let Wish { user, session, lower, upper } = *wish;
    call!(empty, raw::nutrameza_ask, reads image; writes ledger; takes user; takes session; reads lower; reads upper;
        takes objectives.0; takes objectives.1; writes answer;)
}

#[cfg(feature = "asks")]
pub fn short_ask(empty: Empty, image: &[u8], ledger: &mut [u8], wish: &Wish, answer: &mut [u8]) -> u64 {
    let Wish { user, session, lower, upper } = *wish;
    call!(empty, raw::nutrameza_short_ask, reads image; writes ledger; takes user; takes session; reads lower; reads upper;
        writes answer;)
}

#[cfg(feature = "asks")]
pub fn clauses(empty: Empty, image: &[u8], ledger: &[u8], wish: &Wish, objectives: (u64, u64), out: &mut [u8]) -> u64 {
    let Wish { user, session, lower, upper } = *wish;
    call!(empty, raw::nutrameza_clauses, reads image; reads ledger; takes user; takes session; reads lower; reads upper;
        takes objectives.0; takes objectives.1; writes out;)
}

#[cfg(feature = "asks")]
pub fn obstacle(empty: Empty, image: &[u8], ledger: &[u8], wish: &Wish, roles: &mut [u8]) -> u64 {
    let Wish { user, session, lower, upper } = *wish;
    call!(empty, raw::nutrameza_obstacle, reads image; reads ledger; takes user; takes session; reads lower; reads upper;
        writes roles;)
}

/// Makes a call; the answer buffer is the call's room long.
pub fn play(empty: Empty, image: &[u8], ledger: &mut [u8], call: &Call, answer: &mut [u8]) -> u64 {
    match call {
        #[cfg(feature = "calls")]
        Call::Open { user } => open(empty, image, ledger, *user),
        #[cfg(feature = "calls")]
        Call::Close { user, session } => close(empty, image, ledger, *user, *session),
        #[cfg(feature = "calls")]
        Call::Show { user, session, .. } => show(empty, image, ledger, *user, *session, answer),
        #[cfg(feature = "calls")]
        Call::Explain { user, session, permission } => explain(empty, image, ledger, *user, *session, *permission),
        #[cfg(feature = "asks")]
        Call::Ask { user, session, lower, upper, objectives, .. } => {
            let wish = Wish { user: *user, session: *session, lower, upper };
            ask(empty, image, ledger, &wish, *objectives, answer)
        }
        #[cfg(feature = "asks")]
        Call::ShortAsk { user, session, lower, upper, .. } => {
            let wish = Wish { user: *user, session: *session, lower, upper };
            short_ask(empty, image, ledger, &wish, answer)
        }
        #[cfg(feature = "asks")]
        Call::Clauses { user, session, lower, upper, objectives, .. } => {
            let wish = Wish { user: *user, session: *session, lower, upper };
            clauses(empty, image, ledger, &wish, *objectives, answer)
        }
        #[cfg(feature = "asks")]
        Call::Obstacle { user, session, lower, upper, .. } => {
            let wish = Wish { user: *user, session: *session, lower, upper };
            obstacle(empty, image, ledger, &wish, answer)
        }
        #[cfg(not(feature = "asks"))]
        _ => panic!(
            "the linked library has no such call: {call:?} on {} and {} bytes, {empty:?}",
            image.len() + ledger.len(),
            answer.len()
        ),
    }
}
