//! A user's line of the ledger: its bytes, its sets, and when it is sound.

use super::policy::{Exclusion, Kind, Policy};

/// The sessions of a user.
pub const SESSIONS: usize = 8;

/// The bytes of a line.
pub const LINE: usize = line_bytes(SESSIONS);

/// The bytes of a line of so many sessions: open bits, the user's history, then a pair of sets for each session.
pub const fn line_bytes(sessions: usize) -> usize {
    16 + 16 * sessions
}

/// How many sessions a line of so many bytes has.
pub const fn sessions_in(bytes: usize) -> usize {
    (bytes - 16) / 16
}

/// For each role number whether the role is in the set.
pub type RoleFlags = [bool; 64];

/// A session: its active roles and those active at any time since it was opened (01: its past).
#[derive(Clone, Copy, Debug, PartialEq, Eq)]
pub struct Session {
    pub open: bool,
    pub active: RoleFlags,
    pub history: RoleFlags,
}

/// A line as sets, of any number of sessions.
#[derive(Clone, Debug, PartialEq, Eq)]
pub struct Line {
    /// The roles active in any session of the user at any time (01: the person's past).
    pub history: RoleFlags,
    pub sessions: Vec<Session>,
}

/// Eight bytes as a set: role r is bit r mod 8 of byte r div 8.
pub fn read_roles(bytes: &[u8]) -> RoleFlags {
    let mut flags = [false; 64];
    for (role, flag) in flags.iter_mut().enumerate() {
        *flag = bytes[role / 8] / 2u8.pow(role as u32 % 8) % 2 == 1;
    }
    flags
}

/// The eight bytes of a set.
pub fn role_bytes(flags: &RoleFlags) -> [u8; 8] {
    let mut bytes = [0u8; 8];
    for role in 0..64 {
        if flags[role] {
            bytes[role / 8] += 2u8.pow(role as u32 % 8);
        }
    }
    bytes
}

impl Line {
    /// Reads the bytes of a line, its first eight by their open bits alone; how many there are says how many sessions
    /// it has.
    pub fn read(bytes: &[u8]) -> Line {
        let mut sessions = vec![Session { open: false, active: [false; 64], history: [false; 64] }; sessions_in(bytes.len())];
        for (number, session) in sessions.iter_mut().enumerate() {
            let start = 16 + 16 * number;
            session.open = bytes[0] / 2u8.pow(number as u32) % 2 == 1;
            session.active = read_roles(&bytes[start..start + 8]);
            session.history = read_roles(&bytes[start + 8..start + 16]);
        }
        Line { history: read_roles(&bytes[8..16]), sessions }
    }

    /// Writes the bytes of a line.
    pub fn write(&self, bytes: &mut [u8]) {
        bytes[..8].fill(0);
        bytes[8..16].copy_from_slice(&role_bytes(&self.history));
        for (number, session) in self.sessions.iter().enumerate() {
            let start = 16 + 16 * number;
            if session.open {
                bytes[0] += 2u8.pow(number as u32);
            }
            bytes[start..start + 8].copy_from_slice(&role_bytes(&session.active));
            bytes[start + 8..start + 16].copy_from_slice(&role_bytes(&session.history));
        }
    }

    /// The line with this set put in for a session: it replaces the active roles and joins both histories.
    pub fn put_in(&self, session: usize, roles: &RoleFlags) -> Line {
        let mut line = self.clone();
        line.sessions[session].active = *roles;
        for role in 0..64 {
            if roles[role] {
                line.sessions[session].history[role] = true;
                line.history[role] = true;
            }
        }
        line
    }
}

/// How many members of an exclusion satisfy a test, each counted once.
fn count(exclusion: &Exclusion, counted: impl Fn(usize) -> bool) -> usize {
    let mut count = 0;
    for member in &exclusion.members {
        if counted(*member) {
            count += 1;
        }
    }
    count
}

/// Fewer than n of an exclusion's members are counted, in the way of its kind.
pub fn met(exclusion: &Exclusion, line: &Line) -> bool {
    let sessions = &line.sessions;
    match exclusion.kind {
        Kind::SessionActive => sessions.iter().all(|session| count(exclusion, |role| session.active[role]) < exclusion.n),
        Kind::UserActive => {
            let active = |role: usize| sessions.iter().any(|session| session.open && session.active[role]);
            count(exclusion, active) < exclusion.n
        }
        Kind::SessionHistory => sessions.iter().all(|session| count(exclusion, |role| session.history[role]) < exclusion.n),
        Kind::UserHistory => count(exclusion, |role| line.history[role]) < exclusion.n,
    }
}

/// Every role of the first set is in the second.
fn within(inner: &RoleFlags, outer: impl Fn(usize) -> bool) -> bool {
    (0..64).all(|role| !inner[role] || outer(role))
}

/// The bytes are a sound line of this user, for as many sessions as they have room for.
pub fn sound(policy: &Policy, user: usize, bytes: &[u8]) -> bool {
    let open_bits_beyond = (sessions_in(bytes.len()) as u32..8).any(|bit| bytes[0] / 2u8.pow(bit) % 2 == 1);
    if open_bits_beyond || bytes[1..8].iter().any(|byte| *byte != 0) {
        return false;
    }
    let line = Line::read(bytes);
    let own = policy.authorized(user);
    for (number, session) in line.sessions.iter().enumerate() {
        let start = 16 + 16 * number;
        let zero = bytes[start..start + 16].iter().all(|byte| *byte == 0);
        let in_history = within(&session.active, |role| session.history[role]);
        let in_users = within(&session.history, |role| line.history[role]);
        let authorized = within(&session.active, |role| own.contains(&role));
        if !(session.open || zero) || !in_history || !in_users || !authorized {
            return false;
        }
    }
    within(&line.history, |role| role < policy.roles) && policy.exclusions.iter().all(|exclusion| met(exclusion, &line))
}
