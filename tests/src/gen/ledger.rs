//! Ledgers: zero, sound at random, damaged in each field.

use super::Rng;
use crate::solver::line::{line_bytes, sessions_in, sound, Line, RoleFlags, LINE, SESSIONS};
use crate::solver::policy::{Kind, Policy};

/// Takes a role out of every set of a line.
fn forget(line: &mut Line, role: usize) {
    line.history[role] = false;
    for session in &mut line.sessions {
        session.active[role] = false;
        session.history[role] = false;
    }
}

/// Some of the roles that a test lets pass, each in one of `of` draws or all but that.
fn some(rng: &mut Rng, of: u64, may: impl Fn(usize) -> bool) -> RoleFlags {
    let mut flags = [false; 64];
    let thin = rng.one_in(2);
    for (role, flag) in flags.iter_mut().enumerate() {
        *flag = may(role) && rng.one_in(of) == thin;
    }
    flags
}

/// A sound line of a user.
pub fn sound_line(rng: &mut Rng, policy: &Policy, user: usize) -> Vec<u8> {
    sound_line_of(rng, policy, user, SESSIONS)
}

/// A sound line of so many sessions: sets at random, thinned until it is sound.
fn sound_line_of(rng: &mut Rng, policy: &Policy, user: usize, sessions: usize) -> Vec<u8> {
    let mut bytes = vec![0u8; line_bytes(sessions)];
    if rng.one_in(6) {
        return bytes;
    }
    let mut line = Line::read(&bytes);
    let own = policy.authorized(user);
    line.history = some(rng, 3, |role| role < policy.roles);
    let all_open = rng.one_in(6);
    for session in &mut line.sessions {
        session.open = all_open || !rng.one_in(3);
        if session.open {
            session.history = some(rng, 4, |role| line.history[role]);
            let history = session.history;
            session.active = some(rng, 3, |role| history[role] && own.contains(&role));
        }
    }
    loop {
        line.write(&mut bytes);
        if sound(policy, user, &bytes) {
            return bytes;
        }
        let held: Vec<usize> = (0..64).filter(|role| line.history[*role]).collect();
        forget(&mut line, rng.pick(&held));
    }
}

/// The ways in which a line is damaged.
#[derive(Clone, Copy, Debug, PartialEq, Eq)]
pub enum Damage {
    OpenBitAbove,
    FirstBytes,
    ClosedSession,
    ActiveOutsideHistory,
    HistoryOutsideUsers,
    NotAuthorized,
    NoSuchRole,
    Excluded(Kind),
    AnyBit,
    AllBytes,
}

pub const DAMAGES: [Damage; 13] = [
    Damage::OpenBitAbove,
    Damage::FirstBytes,
    Damage::ClosedSession,
    Damage::ActiveOutsideHistory,
    Damage::HistoryOutsideUsers,
    Damage::NotAuthorized,
    Damage::NoSuchRole,
    Damage::Excluded(Kind::SessionActive),
    Damage::Excluded(Kind::UserActive),
    Damage::Excluded(Kind::SessionHistory),
    Damage::Excluded(Kind::UserHistory),
    Damage::AnyBit,
    Damage::AllBytes,
];

/// Damages a line of any number of sessions in one way, as far as the policy and the line give room for it.
pub fn damage(rng: &mut Rng, policy: &Policy, user: usize, bytes: &mut [u8], how: Damage) {
    let mut line = Line::read(bytes);
    let sessions = sessions_in(bytes.len());
    let (session, role) = (rng.place(sessions), rng.place(policy.roles));
    match how {
        Damage::OpenBitAbove => {
            let beyond = rng.from_to(sessions as u64, 11) as usize;
            bytes[beyond / 8] |= 1 << (beyond % 8);
        }
        Damage::FirstBytes => bytes[rng.from_to(1, 7) as usize] |= 1 << rng.below(8),
        Damage::ClosedSession => {
            line.history[role] = true;
            line.sessions[session].open = false;
            line.sessions[session].history[role] = true;
            line.sessions[session].active[role] = rng.one_in(2);
            line.write(bytes);
        }
        Damage::ActiveOutsideHistory => {
            line.history[role] = true;
            line.sessions[session].open = true;
            line.sessions[session].active[role] = true;
            line.sessions[session].history[role] = false;
            line.write(bytes);
        }
        Damage::HistoryOutsideUsers => {
            line.sessions[session].open = true;
            line.sessions[session].history[role] = true;
            line.history[role] = false;
            line.write(bytes);
        }
        Damage::NotAuthorized => {
            let own = policy.authorized(user);
            let others: Vec<usize> = (0..policy.roles).filter(|role| !own.contains(role)).collect();
            if !others.is_empty() {
                activate(&mut line, session, rng.pick(&others));
                line.write(bytes);
            }
        }
        Damage::NoSuchRole => {
            if policy.roles < 64 {
                line.history[rng.from_to(policy.roles as u64, 63) as usize] = true;
                line.write(bytes);
            }
        }
        Damage::Excluded(kind) => {
            exclude(rng, policy, user, &mut line, kind);
            line.write(bytes);
        }
        Damage::AnyBit => bytes[rng.place(bytes.len())] ^= 1 << rng.below(8),
        Damage::AllBytes => {
            let random = rng.bytes(bytes.len());
            bytes.copy_from_slice(&random);
        }
    }
}

/// A role active in an open session, in its history and the user's.
fn activate(line: &mut Line, session: usize, role: usize) {
    line.sessions[session].open = true;
    line.sessions[session].active[role] = true;
    line.sessions[session].history[role] = true;
    line.history[role] = true;
}

/// As many members of an exclusion of this kind as its n, or one fewer, put where the kind counts them.
fn exclude(rng: &mut Rng, policy: &Policy, user: usize, line: &mut Line, kind: Kind) {
    let of_kind: Vec<_> = policy.exclusions.iter().filter(|exclusion| exclusion.kind == kind).collect();
    if of_kind.is_empty() {
        return;
    }
    let exclusion = rng.pick(&of_kind);
    let mut members: Vec<usize> = exclusion.members.iter().copied().collect();
    rng.shuffle(&mut members);
    if matches!(exclusion.kind, Kind::SessionActive | Kind::UserActive) {
        let own = policy.authorized(user);
        members.retain(|role| own.contains(role));
    }
    members.truncate(exclusion.n - usize::from(rng.one_in(4)));
    let one = rng.place(line.sessions.len());
    for role in members {
        let session = if exclusion.kind == Kind::UserActive { rng.place(line.sessions.len()) } else { one };
        match exclusion.kind {
            Kind::SessionActive | Kind::UserActive => activate(line, session, role),
            Kind::SessionHistory => {
                line.sessions[session].open = true;
                line.sessions[session].history[role] = true;
                line.history[role] = true;
            }
            Kind::UserHistory => line.history[role] = true,
        }
    }
}

/// A ledger of sound lines, each damaged in one of `damaged` draws (0: never).
pub fn ledger(rng: &mut Rng, policy: &Policy, damaged: u64) -> Vec<u8> {
    ledger_of(rng, policy, SESSIONS, damaged)
}

/// The same where a user has so many sessions.
pub fn ledger_of(rng: &mut Rng, policy: &Policy, sessions: usize, damaged: u64) -> Vec<u8> {
    let mut ledger = Vec::new();
    for user in 0..policy.users {
        let mut line = sound_line_of(rng, policy, user, sessions);
        if damaged > 0 && rng.one_in(damaged) {
            let how = rng.pick(&DAMAGES);
            damage(rng, policy, user, &mut line, how);
        }
        ledger.extend(line);
    }
    ledger
}

/// Another length than the fitting one.
pub fn misfit(rng: &mut Rng, ledger: &mut Vec<u8>) {
    misfit_of(rng, ledger, LINE)
}

/// The same of a ledger whose lines have so many bytes.
pub fn misfit_of(rng: &mut Rng, ledger: &mut Vec<u8>, line: usize) {
    let fitting = ledger.len();
    let length = match rng.below(6) {
        0 => 0,
        1 => fitting - 1,
        2 => fitting + 1,
        3 => fitting - line,
        4 => fitting + line,
        _ => rng.place(64 * LINE + 1),
    };
    ledger.resize(length, 0);
}
