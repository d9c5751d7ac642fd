//! The clauses of an ask and their text, written from docs/CLAUSES.md alone.

use super::choice::{PermissionFlags, Request};
use super::line::Line;
use super::policy::{Exclusion, Kind};

/// The clauses of an ask; a literal is a variable's number, negative where the variable is to be false.
pub struct Clauses {
    pub variables: usize,
    pub hard: Vec<Vec<i64>>,
    /// Weight and literal of each soft clause.
    pub soft: Vec<(usize, i64)>,
    /// For each exclusion of the policy how many of the hard clauses are its own.
    pub of_exclusions: Vec<usize>,
}

impl Clauses {
    /// One more than all soft weights together.
    pub fn top(&self) -> usize {
        1 + self.soft.iter().map(|(weight, _)| weight).sum::<usize>()
    }

    /// The text: the head line, the hard clauses, the soft clauses.
    pub fn text(&self) -> Vec<u8> {
        let (count, top) = (self.hard.len() + self.soft.len(), self.top());
        let mut text = format!("p wcnf {} {count} {top}\n", self.variables);
        for clause in &self.hard {
            write_line(&mut text, top, clause);
        }
        for (weight, literal) in &self.soft {
            write_line(&mut text, *weight, &[*literal]);
        }
        text.into_bytes()
    }
}

/// A clause as a line.
fn write_line(text: &mut String, weight: usize, literals: &[i64]) {
    text.push_str(&weight.to_string());
    for literal in literals {
        text.push(' ');
        text.push_str(&literal.to_string());
    }
    text.push_str(" 0\n");
}

/// The clauses of an ask that has passed the tests up to 18.
pub fn clauses(request: &Request) -> Clauses {
    let policy = request.policy;
    let (roles, permissions) = (policy.roles, policy.permissions);
    let of_role = |role: usize| role as i64 + 1;
    let of_permission = |permission: usize| (roles + permission) as i64 + 1;
    let own = request.choosable();
    let carried: Vec<_> = (0..roles).map(|role| policy.carried_by(role)).collect();
    let mut hard = Vec::new();
    for role in 0..roles {
        if !own.contains(&role) {
            hard.push(vec![-of_role(role)]);
        }
    }
    for role in 0..roles {
        for permission in 0..permissions {
            if carried[role].contains(&permission) {
                hard.push(vec![-of_role(role), of_permission(permission)]);
            }
        }
    }
    for permission in 0..permissions {
        let carriers = (0..roles).filter(|role| carried[*role].contains(&permission)).map(of_role);
        hard.push([-of_permission(permission)].into_iter().chain(carriers).collect());
    }
    hard.extend(permissions_of(&request.lower, true, permissions).map(|permission| vec![of_permission(permission)]));
    hard.extend(permissions_of(&request.upper, false, permissions).map(|permission| vec![-of_permission(permission)]));
    let (mut highest, mut of_exclusions) = (roles + permissions, Vec::new());
    for exclusion in &policy.exclusions {
        let (left, n) = reduced(exclusion, request.line, request.session);
        let counted = counter(&left, n, highest);
        of_exclusions.push(counted.len());
        hard.extend(counted);
        highest += left.len() * n;
    }
    let mut soft = wanted(request.objectives.0, roles + 1, (0..permissions).map(of_permission));
    soft.extend(wanted(request.objectives.1, 1, (0..roles).map(of_role)));
    Clauses { variables: highest, hard, soft, of_exclusions }
}

/// The permissions below a number that are in a set, or those that are not.
fn permissions_of(set: &PermissionFlags, inside: bool, below: usize) -> impl Iterator<Item = usize> + '_ {
    (0..below).filter(move |permission| set[*permission] == inside)
}

/// The members of an exclusion that are not counted already, as variables, and what is left of its n.
fn reduced(exclusion: &Exclusion, line: &Line, session: usize) -> (Vec<i64>, usize) {
    let others = || line.sessions.iter().enumerate().filter(|(number, _)| *number != session);
    let counted = |role: usize| match exclusion.kind {
        Kind::SessionActive => false,
        Kind::UserActive => others().any(|(_, other)| other.active[role]),
        Kind::SessionHistory => line.sessions[session].history[role],
        Kind::UserHistory => line.history[role],
    };
    let left: Vec<usize> = exclusion.members.iter().copied().filter(|role| !counted(*role)).collect();
    let n = exclusion.n - (exclusion.members.len() - left.len());
    (left.into_iter().map(|role| role as i64 + 1).collect(), n)
}

/// The clauses that fewer than `n` of these variables are true, by helpers above the number `highest`.
fn counter(left: &[i64], n: usize, highest: usize) -> Vec<Vec<i64>> {
    let helper = |row: usize, count: usize| (highest + (row - 1) * n + count) as i64;
    let mut clauses = Vec::new();
    for (row, variable) in (1..).zip(left) {
        clauses.push(vec![-variable, helper(row, 1)]);
        if row > 1 {
            for count in 1..=n {
                clauses.push(vec![-helper(row - 1, count), helper(row, count)]);
            }
            for count in 2..=n {
                clauses.push(vec![-variable, -helper(row - 1, count - 1), helper(row, count)]);
            }
        }
    }
    clauses.push(vec![-helper(left.len(), n)]);
    clauses
}

/// The soft clauses of an aim over some variables.
fn wanted(aim: u64, weight: usize, variables: impl Iterator<Item = i64>) -> Vec<(usize, i64)> {
    match aim {
        1 => variables.map(|variable| (weight, -variable)).collect(),
        2 => variables.map(|variable| (weight, variable)).collect(),
        _ => Vec::new(),
    }
}
