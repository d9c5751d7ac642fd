//! What an accepted image means: who is assigned what and may activate what, what roles carry, what excludes what, what
//! is limited.

use std::collections::{BTreeMap, BTreeSet};

/// A set of role numbers.
pub type Roles = BTreeSet<usize>;

/// A set of permission numbers.
pub type Permissions = BTreeSet<usize>;

/// The four kinds of mutual exclusion of 001, in the order of their numbers.
#[derive(Clone, Copy, Debug, PartialEq, Eq, PartialOrd, Ord)]
pub enum Kind {
    /// 0, SS-DMER: members active in the session.
    SessionActive,
    /// 1, MS-DMER: members active in any open session of the user.
    UserActive,
    /// 2, SS-HMER: members active in the session at any time since it was opened.
    SessionHistory,
    /// 3, MS-HMER: members active in any session of the user at any time.
    UserHistory,
}

/// Fewer than n of the members may be counted.
#[derive(Clone, Debug, PartialEq, Eq, PartialOrd, Ord)]
pub struct Exclusion {
    pub kind: Kind,
    pub n: usize,
    pub members: Roles,
}

/// A policy: the head's numbers and what the entries say.
#[derive(Clone, Debug)]
pub struct Policy {
    pub users: usize,
    pub roles: usize,
    pub permissions: usize,
    /// The roles assigned to each user.
    pub assigned: Vec<Roles>,
    /// The permissions granted to each role by name.
    pub granted: Vec<Permissions>,
    /// The roles that each role is said to be senior over.
    pub juniors: Vec<Roles>,
    pub exclusions: Vec<Exclusion>,
    /// For each limited role its t, the smallest that a word gives it: fewer than t sessions, over all users, may hold
    /// it (001: CARD).
    pub limits: BTreeMap<usize, usize>,
}

impl Policy {
    /// A policy of these numbers that says nothing.
    pub fn blank(users: usize, roles: usize, permissions: usize) -> Policy {
        Policy {
            users,
            roles,
            permissions,
            assigned: vec![Roles::new(); users],
            granted: vec![Permissions::new(); roles],
            juniors: vec![Roles::new(); roles],
            exclusions: Vec::new(),
            limits: BTreeMap::new(),
        }
    }

    /// The roles that a chain of senior words reaches from a role, the role itself among them.
    pub fn reached(&self, role: usize) -> Roles {
        let mut found = Roles::from([role]);
        let mut waiting = vec![role];
        while let Some(senior) = waiting.pop() {
            for junior in &self.juniors[senior] {
                if found.insert(*junior) {
                    waiting.push(*junior);
                }
            }
        }
        found
    }

    /// A chain of at least one senior word leads from the role back to it.
    pub fn on_loop(&self, role: usize) -> bool {
        self.juniors[role].iter().any(|junior| self.reached(*junior).contains(&role))
    }

    /// The lowest role on a loop, if there is a loop.
    pub fn lowest_on_loop(&self) -> Option<usize> {
        (0..self.roles).find(|role| self.on_loop(*role))
    }

    /// The roles that a user may activate: those assigned, and every role below one of them.
    pub fn authorized(&self, user: usize) -> Roles {
        let mut found = self.assigned[user].clone();
        let mut waiting: Vec<usize> = found.iter().copied().collect();
        while let Some(role) = waiting.pop() {
            waiting.extend(self.juniors[role].iter().filter(|junior| found.insert(**junior)));
        }
        found
    }

    /// The lowest user who may activate more than 16 roles, if there is one.
    pub fn lowest_over_reach(&self) -> Option<usize> {
        (0..self.users).find(|user| self.authorized(*user).len() > 16)
    }

    /// The lowest-numbered role at or below a role that holds the grant of a permission, if one does.
    pub fn granting_role(&self, role: usize, permission: usize) -> Option<usize> {
        let reached = self.reached(role);
        for granting in 0..self.roles {
            if reached.contains(&granting) && self.granted[granting].contains(&permission) {
                return Some(granting);
            }
        }
        None
    }

    /// The permissions that a role carries.
    pub fn carried_by(&self, role: usize) -> Permissions {
        let mut carried = Permissions::new();
        for reached in self.reached(role) {
            carried.extend(&self.granted[reached]);
        }
        carried
    }
}
