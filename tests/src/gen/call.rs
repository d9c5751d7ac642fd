//! Calls: users, sessions, objectives, rooms, permissions and bounds within and beyond what fits.

use super::{wild, Rng};
use crate::solver::calls::{Call, ANSWER};
use crate::solver::line::{Line, LINE, SESSIONS};
use crate::solver::obstacle::OBSTACLE;
use crate::solver::policy::{Permissions, Policy};

fn user(rng: &mut Rng, policy: &Policy) -> u64 {
    if rng.one_in(16) {
        return wild(rng, policy.users as u64);
    }
    rng.below(policy.users as u64)
}

fn session(rng: &mut Rng) -> u64 {
    if rng.one_in(12) {
        return wild(rng, SESSIONS as u64);
    }
    rng.below(SESSIONS as u64)
}

fn room(rng: &mut Rng, wrong: u64) -> usize {
    if rng.one_in(wrong) {
        return rng.place(81);
    }
    ANSWER
}

/// A permission to be explained to a user: one that the roles carry mostly, else any, at times one beyond the policy.
pub fn permission(rng: &mut Rng, policy: &Policy, user: u64) -> u64 {
    if rng.one_in(8) {
        return wild(rng, policy.permissions as u64);
    }
    let known = if user < policy.users as u64 { user as usize } else { 0 };
    let own: Vec<usize> = carried(rng, policy, known, 3).into_iter().collect();
    if own.is_empty() || rng.one_in(4) {
        return rng.below(policy.permissions as u64);
    }
    rng.pick(&own) as u64
}

/// An open, close, show or explain.
pub fn plain(rng: &mut Rng, policy: &Policy) -> Call {
    let user = user(rng, policy);
    match rng.below(4) {
        0 => Call::Open { user },
        1 => Call::Close { user, session: session(rng) },
        2 => Call::Show { user, session: session(rng), room: room(rng, 4) },
        _ => Call::Explain { user, session: session(rng), permission: permission(rng, policy, user) },
    }
}

/// What the active roles of a session carry in this ledger, as far as there are such roles.
fn active_carried(policy: &Policy, ledger: &[u8], user: usize, session: u64) -> Vec<usize> {
    let mut carried = Permissions::new();
    let line = ledger.get(LINE * user..LINE * (user + 1)).map(Line::read);
    if let Some(session) = line.as_ref().and_then(|line| line.sessions.get(session as usize)) {
        (0..policy.roles).filter(|role| session.active[*role]).for_each(|role| carried.extend(policy.carried_by(role)));
    }
    carried.into_iter().collect()
}

/// An explain, mostly on a session that is open in this ledger and of what its active roles carry.
pub fn explain(rng: &mut Rng, policy: &Policy, ledger: &[u8]) -> Call {
    let user = user(rng, policy);
    let known = if user < policy.users as u64 { user as usize } else { 0 };
    let session = open_session(rng, ledger, known);
    let carried = active_carried(policy, ledger, known, session);
    if carried.is_empty() || rng.one_in(4) {
        return Call::Explain { user, session, permission: permission(rng, policy, user) };
    }
    Call::Explain { user, session, permission: rng.pick(&carried) as u64 }
}

/// The bytes of a permission set.
pub fn bound(set: &Permissions) -> Vec<u8> {
    let mut bytes = vec![0u8; 32];
    for permission in set {
        bytes[permission / 8] |= 1 << (permission % 8);
    }
    bytes
}

/// Some permissions of a set: none, a few or about half.
fn some(rng: &mut Rng, set: &Permissions) -> Permissions {
    let all: Vec<usize> = set.iter().copied().collect();
    match rng.below(8) {
        0 => Permissions::new(),
        1..=5 if !all.is_empty() => (0..rng.from_to(1, 3)).map(|_| rng.pick(&all)).collect(),
        _ => all.into_iter().filter(|_| rng.one_in(2)).collect(),
    }
}

/// What some of the user's roles carry together.
fn carried(rng: &mut Rng, policy: &Policy, user: usize, left_out: u64) -> Permissions {
    let mut set = Permissions::new();
    for role in &policy.authorized(user) {
        if !rng.one_in(left_out) {
            set.extend(policy.carried_by(*role));
        }
    }
    set
}

/// Bounds for a user's ask: the lower mostly of what the roles carry, the upper above it, all or cutting roles.
pub fn bounds(rng: &mut Rng, policy: &Policy, user: usize) -> (Vec<u8>, Vec<u8>) {
    let all: Permissions = (0..policy.permissions).collect();
    let own = carried(rng, policy, user, 3);
    let from = if rng.one_in(8) { &all } else { &own };
    let mut lower = some(rng, from);
    let mut upper = match rng.below(6) {
        0..=2 => all.clone(),
        3 => own.clone(),
        4 => carried(rng, policy, user, 2),
        _ => some(rng, &all),
    };
    if rng.one_in(30) {
        (lower, upper) = (Permissions::new(), Permissions::new());
    }
    upper.extend(&lower);
    if rng.one_in(24) {
        lower.iter().take(1).for_each(|outside| {
            upper.remove(outside);
        });
    }
    let (mut lower, mut upper) = (bound(&lower), bound(&upper));
    if rng.one_in(24) && policy.permissions < 256 {
        let beyond = rng.from_to(policy.permissions as u64, 255) as usize;
        upper[beyond / 8] |= 1 << (beyond % 8);
        if rng.one_in(2) {
            lower[beyond / 8] |= 1 << (beyond % 8);
        }
    }
    if rng.one_in(40) {
        lower.resize(rng.pick(&[0, 1, 31, 33, 64]), 0);
    }
    if rng.one_in(40) {
        upper.resize(rng.pick(&[0, 1, 31, 33, 64]), 0);
    }
    (lower, upper)
}

fn objective(rng: &mut Rng) -> u64 {
    if rng.one_in(40) {
        return wild(rng, 3);
    }
    rng.below(3)
}

/// A session that is open in a user's line of this ledger, mostly and where there is one.
fn open_session(rng: &mut Rng, ledger: &[u8], user: usize) -> u64 {
    let bits = ledger.get(LINE * user).copied().unwrap_or(0);
    let open: Vec<u64> = (0..SESSIONS as u64).filter(|session| bits >> session & 1 == 1).collect();
    if open.is_empty() || rng.one_in(8) {
        return session(rng);
    }
    rng.pick(&open)
}

/// An ask or short ask, mostly on a session that is open in this ledger.
pub fn ask(rng: &mut Rng, policy: &Policy, ledger: &[u8]) -> Call {
    let user = user(rng, policy);
    let known = if user < policy.users as u64 { user as usize } else { 0 };
    let session = open_session(rng, ledger, known);
    let (lower, upper) = bounds(rng, policy, known);
    let room = room(rng, 40);
    if rng.one_in(5) {
        return Call::ShortAsk { user, session, lower, upper, room };
    }
    Call::Ask { user, session, lower, upper, objectives: (objective(rng), objective(rng)), room }
}

/// A clause text of an ask, mostly on a session that is open in this ledger; its buffer is long enough for small
/// policies, mostly.
pub fn clauses(rng: &mut Rng, policy: &Policy, ledger: &[u8]) -> Call {
    let user = user(rng, policy);
    let known = if user < policy.users as u64 { user as usize } else { 0 };
    let session = open_session(rng, ledger, known);
    let (lower, upper) = bounds(rng, policy, known);
    let room = if rng.one_in(8) { rng.place(2_000) } else { 12_000 };
    Call::Clauses { user, session, lower, upper, objectives: (objective(rng), objective(rng)), room }
}

/// What stands in the way of an ask, mostly on a session that is open in this ledger; its buffer is mostly of 16 bytes.
pub fn obstacle(rng: &mut Rng, policy: &Policy, ledger: &[u8]) -> Call {
    let user = user(rng, policy);
    let known = if user < policy.users as u64 { user as usize } else { 0 };
    let session = open_session(rng, ledger, known);
    let (lower, upper) = bounds(rng, policy, known);
    let room = if rng.one_in(24) { rng.place(49) } else { OBSTACLE };
    Call::Obstacle { user, session, lower, upper, room }
}

/// A call of any sort but the clause text, which follows the order of the image; an ask mostly.
pub fn any(rng: &mut Rng, policy: &Policy, ledger: &[u8]) -> Call {
    match rng.below(26) {
        0..=6 => plain(rng, policy),
        7..=8 => explain(rng, policy, ledger),
        9..=10 => obstacle(rng, policy, ledger),
        _ => ask(rng, policy, ledger),
    }
}
