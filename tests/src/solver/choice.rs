//! The choice of a role set: every subset of the user's roles is tried and held against the definition.

use super::line::{met, Line, RoleFlags};
use super::policy::{Policy, Roles};

/// For each permission number whether the permission is in the set.
pub type PermissionFlags = [bool; 256];

/// What is asked for one session of a user.
#[derive(Debug)]
pub struct Request<'a> {
    pub policy: &'a Policy,
    pub user: usize,
    pub line: &'a Line,
    pub session: usize,
    /// The roles that may not be chosen since their limits are reached.
    pub barred: Roles,
    pub lower: PermissionFlags,
    pub upper: PermissionFlags,
    /// Permissions, then roles: 0 any, 1 fewest, 2 most (01: aims).
    pub objectives: (u64, u64),
}

impl Request<'_> {
    /// The roles that the user may activate, those barred left out.
    pub fn choosable(&self) -> Roles {
        self.policy.authorized(self.user).difference(&self.barred).copied().collect()
    }
}

/// A set of roles with what ranks it.
#[derive(Clone, Debug)]
pub struct Candidate {
    pub roles: RoleFlags,
    pub carried: PermissionFlags,
    pub permission_count: usize,
    pub role_count: usize,
}

/// The best set, how many sets are admissible, and how many of them tie with it but for the set number.
pub struct Choice {
    pub best: Candidate,
    pub admissible: usize,
    pub tied: usize,
}

impl Candidate {
    /// The set number: role r counts 2 to the power r.
    fn number(&self) -> u64 {
        let mut number = 0;
        for role in 0..64 {
            if self.roles[role] {
                number += 2u64.pow(role as u32);
            }
        }
        number
    }
}

/// How one count stands to another under an objective: less is better.
fn compare(objective: u64, left: usize, right: usize) -> std::cmp::Ordering {
    match objective {
        1 => left.cmp(&right),
        2 => right.cmp(&left),
        _ => std::cmp::Ordering::Equal,
    }
}

/// How one set stands to another under both objectives, the set number aside.
pub fn rank(objectives: (u64, u64), left: &Candidate, right: &Candidate) -> std::cmp::Ordering {
    let permissions = compare(objectives.0, left.permission_count, right.permission_count);
    permissions.then(compare(objectives.1, left.role_count, right.role_count))
}

/// The subsets under trial: roles taken so far, and for each permission how many of them carry it.
struct Trial<'a> {
    request: &'a Request<'a>,
    /// The roles that may be chosen, each with the permissions that it carries.
    own: Vec<(usize, Vec<usize>)>,
    roles: RoleFlags,
    carriers: [usize; 256],
    /// Takes each admissible set.
    found: &'a mut dyn FnMut(Candidate),
}

/// The best admissible set of an ask that has passed the earlier tests.
pub fn choose(request: &Request) -> Option<Choice> {
    let mut choice: Option<Choice> = None;
    each_admissible(request, &mut |candidate| {
        choice = Some(match choice.take() {
            None => Choice { best: candidate, admissible: 1, tied: 1 },
            Some(choice) => choice.joined_by(candidate, request.objectives),
        });
    });
    choice
}

/// Goes through the admissible sets of such an ask.
pub fn each_admissible(request: &Request, found: &mut dyn FnMut(Candidate)) {
    let policy = request.policy;
    let carried = |role: &usize| (*role, policy.carried_by(*role).into_iter().collect());
    let mut trial =
        Trial { request, own: request.choosable().iter().map(carried).collect(), roles: [false; 64], carriers: [0; 256], found };
    trial.with_and_without(0);
}

impl Trial<'_> {
    /// Goes through all sets that differ from the present one in the user's roles from this one on.
    fn with_and_without(&mut self, from: usize) {
        if from == self.own.len() {
            self.judge();
            return;
        }
        self.with_and_without(from + 1);
        let (role, carried) = self.own[from].clone();
        self.roles[role] = true;
        carried.iter().for_each(|permission| self.carriers[*permission] += 1);
        self.with_and_without(from + 1);
        self.roles[role] = false;
        carried.iter().for_each(|permission| self.carriers[*permission] -= 1);
    }

    /// Holds the present set against the definition.
    fn judge(&mut self) {
        let request = self.request;
        for permission in 0..256 {
            let carried = self.carriers[permission] > 0;
            if (request.lower[permission] && !carried) || (carried && !request.upper[permission]) {
                return;
            }
        }
        let after = request.line.put_in(request.session, &self.roles);
        if request.policy.exclusions.iter().any(|exclusion| !met(exclusion, &after)) {
            return;
        }
        let candidate = self.candidate();
        (self.found)(candidate);
    }

    /// The present set with its counts.
    fn candidate(&self) -> Candidate {
        let mut carried = [false; 256];
        for permission in 0..256 {
            carried[permission] = self.carriers[permission] > 0;
        }
        Candidate {
            roles: self.roles,
            carried,
            permission_count: carried.iter().filter(|carried| **carried).count(),
            role_count: self.roles.iter().filter(|taken| **taken).count(),
        }
    }
}

impl Choice {
    /// The choice once another admissible set is known.
    fn joined_by(self, other: Candidate, objectives: (u64, u64)) -> Choice {
        let admissible = self.admissible + 1;
        match rank(objectives, &other, &self.best) {
            std::cmp::Ordering::Less => Choice { best: other, admissible, tied: 1 },
            std::cmp::Ordering::Greater => Choice { admissible, ..self },
            std::cmp::Ordering::Equal => {
                let best = if other.number() < self.best.number() { other } else { self.best };
                Choice { best, admissible, tied: self.tied + 1 }
            }
        }
    }
}
