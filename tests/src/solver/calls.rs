//! The calls on a ledger: the tests in the order of the register, then what the call does.

use super::choice::{choose, PermissionFlags, Request};
use super::clauses::clauses;
use super::image::Judged;
use super::line::{line_bytes, role_bytes, sound, Line, RoleFlags, SESSIONS};
use super::obstacle::{obstacle, OBSTACLE};
use super::policy::{Policy, Roles};

/// The bytes of an answer: 8 of roles, 32 of permissions.
pub const ANSWER: usize = 40;

/// The objectives of a short ask: fewest permissions, then fewest roles.
pub const SHORT_OBJECTIVES: (u64, u64) = (1, 1);

/// A call with its arguments, image and ledger apart; an answer buffer is known by its length.
#[derive(Clone, Debug, PartialEq, Eq)]
pub enum Call {
    Open { user: u64 },
    Close { user: u64, session: u64 },
    Show { user: u64, session: u64, room: usize },
    Ask { user: u64, session: u64, lower: Vec<u8>, upper: Vec<u8>, objectives: (u64, u64), room: usize },
    ShortAsk { user: u64, session: u64, lower: Vec<u8>, upper: Vec<u8>, room: usize },
    Explain { user: u64, session: u64, permission: u64 },
    Clauses { user: u64, session: u64, lower: Vec<u8>, upper: Vec<u8>, objectives: (u64, u64), room: usize },
    Obstacle { user: u64, session: u64, lower: Vec<u8>, upper: Vec<u8>, room: usize },
}

/// What a call answers: the number, the extra and the bytes that fill the answer buffer from its start on, if any do.
#[derive(Clone, Debug, PartialEq, Eq)]
pub struct Reply {
    pub number: u64,
    pub extra: u64,
    pub answer: Option<Vec<u8>>,
    /// Of a done ask: how many admissible sets tie with the best but for the set number.
    pub tied: usize,
}

impl Reply {
    fn refused(number: u64, extra: u64) -> Reply {
        Reply { number, extra, answer: None, tied: 0 }
    }

    fn done(extra: u64, answer: Option<Vec<u8>>, tied: usize) -> Reply {
        Reply { number: 0, extra, answer, tied }
    }

    /// The number that the C interface returns.
    pub fn returned(&self) -> u64 {
        self.number + 256 * self.extra
    }
}

impl Call {
    /// The user that the call names.
    pub fn user(&self) -> u64 {
        match self {
            Call::Open { user }
            | Call::Close { user, .. }
            | Call::Show { user, .. }
            | Call::Ask { user, .. }
            | Call::ShortAsk { user, .. }
            | Call::Explain { user, .. }
            | Call::Clauses { user, .. }
            | Call::Obstacle { user, .. } => *user,
        }
    }

    /// The session that the call names, 0 for an open.
    pub fn session(&self) -> u64 {
        match self {
            Call::Open { .. } => 0,
            Call::Close { session, .. }
            | Call::Show { session, .. }
            | Call::Ask { session, .. }
            | Call::ShortAsk { session, .. }
            | Call::Explain { session, .. }
            | Call::Clauses { session, .. }
            | Call::Obstacle { session, .. } => *session,
        }
    }

    /// An ask, of either form, a clause text or an obstacle: the calls that look at other users' lines under a policy
    /// with limits.
    pub fn is_ask(&self) -> bool {
        matches!(self, Call::Ask { .. } | Call::ShortAsk { .. } | Call::Clauses { .. } | Call::Obstacle { .. })
    }

    /// The length of the answer buffer, 0 for a call without one.
    pub fn room(&self) -> usize {
        match self {
            Call::Show { room, .. }
            | Call::Ask { room, .. }
            | Call::ShortAsk { room, .. }
            | Call::Clauses { room, .. }
            | Call::Obstacle { room, .. } => *room,
            Call::Open { .. } | Call::Close { .. } | Call::Explain { .. } => 0,
        }
    }
}

/// Plays a call on a ledger under a judged image.
pub fn play(image: &Judged, ledger: &mut [u8], call: &Call) -> Reply {
    play_with(SESSIONS, image, ledger, call)
}

/// The same where a user has so many sessions.
pub fn play_with(sessions: usize, image: &Judged, ledger: &mut [u8], call: &Call) -> Reply {
    let policy = match image {
        Ok(policy) => policy,
        Err(refused) => return Reply::refused(refused.number, refused.extra as u64),
    };
    let line_bytes = line_bytes(sessions);
    if ledger.len() != line_bytes * policy.users {
        return Reply::refused(9, 0);
    }
    if call.user() >= policy.users as u64 {
        return Reply::refused(10, 0);
    }
    let user = call.user() as usize;
    let place = line_bytes * user..line_bytes * (user + 1);
    let looks_at_all = call.is_ask() && !policy.limits.is_empty();
    let judged = if looks_at_all { 0..policy.users } else { user..user + 1 };
    for other in judged {
        if !sound(policy, other, &ledger[line_bytes * other..line_bytes * (other + 1)]) {
            return Reply::refused(11, if other == user { 0 } else { other as u64 + 1 });
        }
    }
    let mut line = Line::read(&ledger[place.clone()]);
    let barred = barred(policy, line_bytes, ledger, call);
    let reply = rule(policy, user, &mut line, barred, call);
    line.write(&mut ledger[place]);
    reply
}

/// The limited roles that are active in t - 1 or more sessions, over all users, other than the one that an ask names.
pub fn barred(policy: &Policy, line_bytes: usize, ledger: &[u8], ask: &Call) -> Roles {
    let lines: Vec<Line> = ledger.chunks(line_bytes).map(Line::read).collect();
    let asked = |user: usize, session: usize| (user as u64, session as u64) == (ask.user(), ask.session());
    let mut barred = Roles::new();
    for (role, limit) in &policy.limits {
        let mut holding = 0;
        for (user, line) in lines.iter().enumerate() {
            for (number, session) in line.sessions.iter().enumerate() {
                if session.active[*role] && !asked(user, number) {
                    holding += 1;
                }
            }
        }
        if holding >= limit - 1 {
            barred.insert(*role);
        }
    }
    barred
}

/// The session rules on a sound line, for an ask with the roles that it may not choose; a refusal leaves the line.
fn rule(policy: &Policy, user: usize, line: &mut Line, barred: Roles, call: &Call) -> Reply {
    match call {
        Call::Open { .. } => open(line),
        Call::Close { session, .. } => match open_session(line, *session) {
            Err(number) => Reply::refused(number, 0),
            Ok(session) => close(line, session),
        },
        Call::Show { session, room, .. } => match open_session(line, *session) {
            Err(number) => Reply::refused(number, 0),
            Ok(_) if *room != ANSWER => Reply::refused(19, 0),
            Ok(session) => show(policy, line, session),
        },
        Call::Ask { session, lower, upper, objectives, room, .. } => {
            let asked = request(policy, user, line, barred, *session, (lower, upper), *objectives);
            put_in(line, asked.and_then(|asked| ask(&asked, *room)))
        }
        Call::ShortAsk { session, lower, upper, room, .. } => {
            let asked = request(policy, user, line, barred, *session, (lower, upper), SHORT_OBJECTIVES);
            put_in(line, asked.and_then(|asked| ask(&asked, *room)))
        }
        Call::Clauses { session, lower, upper, objectives, room, .. } => {
            let asked = request(policy, user, line, barred, *session, (lower, upper), *objectives);
            let text = asked.and_then(|asked| write_clauses(&asked, *room));
            text.unwrap_or_else(|number| Reply::refused(number, 0))
        }
        Call::Obstacle { session, lower, upper, room, .. } => {
            let asked = request(policy, user, line, barred, *session, (lower, upper), SHORT_OBJECTIVES);
            let told = asked.and_then(|asked| tell(&asked, *room));
            told.unwrap_or_else(|number| Reply::refused(number, 0))
        }
        Call::Explain { session, permission, .. } => match open_session(line, *session) {
            Err(number) => Reply::refused(number, 0),
            Ok(_) if *permission >= policy.permissions as u64 => Reply::refused(16, 0),
            Ok(session) => explain(policy, line, session, *permission as usize),
        },
    }
}

/// The session of this number, if it exists and is open; else 12 or 13.
fn open_session(line: &Line, session: u64) -> Result<usize, u64> {
    if session >= line.sessions.len() as u64 {
        return Err(12);
    }
    if !line.sessions[session as usize].open {
        return Err(13);
    }
    Ok(session as usize)
}

/// The lowest closed session opens, empty.
fn open(line: &mut Line) -> Reply {
    for (number, session) in line.sessions.iter_mut().enumerate() {
        if !session.open {
            session.open = true;
            return Reply::done(number as u64, None, 0);
        }
    }
    Reply::refused(14, 0)
}

/// The session's bytes and its open bit become zero.
fn close(line: &mut Line, session: usize) -> Reply {
    let closed = &mut line.sessions[session];
    closed.open = false;
    closed.active = [false; 64];
    closed.history = [false; 64];
    Reply::done(0, None, 0)
}

/// The session's active roles and what they carry.
fn show(policy: &Policy, line: &Line, session: usize) -> Reply {
    let active = &line.sessions[session].active;
    let mut carried = [false; 256];
    for role in 0..64 {
        if active[role] {
            policy.carried_by(role).into_iter().for_each(|permission| carried[permission] = true);
        }
    }
    Reply::done(0, Some(answer(active, &carried)), 0)
}

/// The lowest active role that carries the permission, and the role that grants it to that one.
fn explain(policy: &Policy, line: &Line, session: usize, permission: usize) -> Reply {
    for role in 0..policy.roles {
        if line.sessions[session].active[role] {
            if let Some(granting) = policy.granting_role(role, permission) {
                return Reply::done((64 * role + granting) as u64, None, 0);
            }
        }
    }
    Reply::refused(20, 0)
}

/// What is asked, if the tests 12, 13 and 15 to 18 are passed; else the number.
fn request<'a>(
    policy: &'a Policy,
    user: usize,
    line: &'a Line,
    barred: Roles,
    session: u64,
    (lower, upper): (&[u8], &[u8]),
    objectives: (u64, u64),
) -> Result<Request<'a>, u64> {
    let session = open_session(line, session)?;
    if lower.len() != 32 || upper.len() != 32 {
        return Err(15);
    }
    let (lower, upper) = (read_permissions(lower), read_permissions(upper));
    if (policy.permissions..256).any(|permission| lower[permission] || upper[permission]) {
        return Err(16);
    }
    if (0..256).any(|permission| lower[permission] && !upper[permission]) {
        return Err(17);
    }
    if objectives.0 > 2 || objectives.1 > 2 {
        return Err(18);
    }
    Ok(Request { policy, user, line, session, barred, lower, upper, objectives })
}

/// The session's active roles are replaced by the best admissible set: what is answered and the line after it, or 19 or
/// 20.
fn ask(request: &Request, room: usize) -> Result<(Reply, Line), u64> {
    if room != ANSWER {
        return Err(19);
    }
    let choice = choose(request).ok_or(20u64)?;
    let filled = answer(&choice.best.roles, &choice.best.carried);
    Ok((Reply::done(0, Some(filled), choice.tied), request.line.put_in(request.session, &choice.best.roles)))
}

/// Puts in what an ask gives; a refusal leaves the line.
fn put_in(line: &mut Line, asked: Result<(Reply, Line), u64>) -> Reply {
    match asked {
        Err(number) => Reply::refused(number, 0),
        Ok((reply, after)) => {
            *line = after;
            reply
        }
    }
}

/// The clause text, or 19 where it is longer than the buffer.
fn write_clauses(request: &Request, room: usize) -> Result<Reply, u64> {
    let text = clauses(request).text();
    if text.len() > room {
        return Err(19);
    }
    Ok(Reply::done(text.len() as u64, Some(text), 0))
}

/// What stands in the way of an ask, or 19 for another buffer size, or 20 where nothing does.
fn tell(request: &Request, room: usize) -> Result<Reply, u64> {
    if room != OBSTACLE {
        return Err(19);
    }
    let obstacle = obstacle(request).ok_or(20u64)?;
    Ok(Reply::done(obstacle.extra(), Some(obstacle.bytes()), 0))
}

/// A bound's 32 bytes as a set: permission p is bit p mod 8 of byte p div 8.
pub fn read_permissions(bytes: &[u8]) -> PermissionFlags {
    let mut flags = [false; 256];
    for (permission, flag) in flags.iter_mut().enumerate() {
        *flag = bytes[permission / 8] / 2u8.pow(permission as u32 % 8) % 2 == 1;
    }
    flags
}

/// The bytes of an answer.
fn answer(roles: &RoleFlags, carried: &PermissionFlags) -> Vec<u8> {
    let mut bytes = vec![0u8; ANSWER];
    bytes[..8].copy_from_slice(&role_bytes(roles));
    for permission in 0..256 {
        if carried[permission] {
            bytes[8 + permission / 8] += 2u8.pow(permission as u32 % 8);
        }
    }
    bytes
}
