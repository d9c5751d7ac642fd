//! What stands in the way of an ask (P14): each row of its table by a walk over all permissions, all subsets and all
//! prefixes of the exclusions in the order of the tidy image.

use super::choice::{PermissionFlags, Request};
use super::line::{met, role_bytes, RoleFlags};
use super::policy::{Exclusion, Kind, Policy, Roles};
use super::tidy::in_order;

/// The bytes that an obstacle fills: two sets of roles.
pub const OBSTACLE: usize = 16;

/// What stands in the way: the kind, what it is about, and two sets of roles.
#[derive(Clone, Debug, PartialEq, Eq)]
pub struct Obstacle {
    pub kind: u64,
    pub about: u64,
    pub first: Roles,
    pub second: Roles,
}

impl Obstacle {
    fn of_permission(kind: u64, permission: usize, roles: Roles) -> Obstacle {
        Obstacle { kind, about: permission as u64, first: roles, second: Roles::new() }
    }

    /// The extra: the kind plus 8 times what it is about.
    pub fn extra(&self) -> u64 {
        self.kind + 8 * self.about
    }

    /// The bytes of both sets, each as in a history.
    pub fn bytes(&self) -> Vec<u8> {
        let set = |roles: &Roles| {
            let mut flags = [false; 64];
            roles.iter().for_each(|role| flags[*role] = true);
            role_bytes(&flags)
        };
        [set(&self.first), set(&self.second)].concat()
    }
}

/// The first of the four kinds that holds of an ask that no earlier test refuses; its objectives have no say.
pub fn obstacle(request: &Request) -> Option<Obstacle> {
    [own, upper, limit, exclusion].iter().find_map(|kind| kind(request))
}

/// The permissions of the lower bound, from the lowest on.
fn lower(request: &Request) -> Vec<usize> {
    (0..256).filter(|permission| request.lower[*permission]).collect()
}

/// Some permission that the role carries is outside the upper bound.
fn carries_more(request: &Request, role: usize) -> bool {
    request.policy.carried_by(role).into_iter().any(|permission| !request.upper[permission])
}

/// Of some roles those that carry a permission.
fn carrying(policy: &Policy, roles: impl IntoIterator<Item = usize>, permission: usize) -> Roles {
    roles.into_iter().filter(|role| policy.carried_by(*role).contains(&permission)).collect()
}

/// Kind 1: a permission that no role which the user may activate carries, and the roles of the policy that carry it.
fn own(request: &Request) -> Option<Obstacle> {
    let policy = request.policy;
    let lacking = |permission: &usize| carrying(policy, policy.authorized(request.user), *permission).is_empty();
    let permission = lower(request).into_iter().find(lacking)?;
    Some(Obstacle::of_permission(1, permission, carrying(policy, 0..policy.roles, permission)))
}

/// Kind 2: a permission whose carriers, of the roles that the user may activate, all carry something outside the upper
/// bound too.
fn upper(request: &Request) -> Option<Obstacle> {
    for permission in lower(request) {
        let carriers = carrying(request.policy, request.policy.authorized(request.user), permission);
        if carriers.iter().all(|role| carries_more(request, *role)) {
            return Some(Obstacle::of_permission(2, permission, carriers));
        }
    }
    None
}

/// Kind 3: a permission whose carriers, of the roles that the user may activate and that carry nothing outside the
/// upper bound, are all barred.
fn limit(request: &Request) -> Option<Obstacle> {
    for permission in lower(request) {
        let carriers = carrying(request.policy, request.policy.authorized(request.user), permission);
        let fitting: Roles = carriers.into_iter().filter(|role| !carries_more(request, *role)).collect();
        if fitting.iter().all(|role| request.barred.contains(role)) {
            return Some(Obstacle::of_permission(3, permission, fitting));
        }
    }
    None
}

/// Kind 4: the first exclusion with which no set is left. The sets left by the exclusions before it are kept from one
/// to the next.
fn exclusion(request: &Request) -> Option<Obstacle> {
    let mut left = within_bounds(request);
    for exclusion in in_order(&request.policy.exclusions) {
        if left.is_empty() {
            return None;
        }
        left.retain(|set| met(exclusion, &request.line.put_in(request.session, set)));
        if left.is_empty() {
            let (counted, members) = (counted(request, exclusion), exclusion.members.clone());
            let about = exclusion.kind as u64 + 4 * exclusion.n as u64;
            return Some(Obstacle { kind: 4, about, first: counted, second: members });
        }
    }
    None
}

/// All sets without barred roles, of those that the user may activate, that carry the lower bound and nothing outside
/// the upper: each role doubles the sets, by those that have it.
fn within_bounds(request: &Request) -> Vec<RoleFlags> {
    let mut sets: Vec<(RoleFlags, PermissionFlags)> = vec![([false; 64], [false; 256])];
    for role in request.choosable() {
        if carries_more(request, role) {
            continue;
        }
        let carried = request.policy.carried_by(role);
        for place in 0..sets.len() {
            let (mut roles, mut permissions) = sets[place];
            roles[role] = true;
            carried.iter().for_each(|permission| permissions[*permission] = true);
            sets.push((roles, permissions));
        }
    }
    let wanted = lower(request);
    let carries_lower = |permissions: &PermissionFlags| wanted.iter().all(|permission| permissions[*permission]);
    sets.into_iter().filter(|(_, permissions)| carries_lower(permissions)).map(|(roles, _)| roles).collect()
}

/// The members that an exclusion counts for this session whatever is put in for it.
fn counted(request: &Request, exclusion: &Exclusion) -> Roles {
    let line = request.line;
    let others = || line.sessions.iter().enumerate().filter(|(number, _)| *number != request.session);
    let counts = |role: usize| match exclusion.kind {
        Kind::SessionActive => false,
        Kind::UserActive => others().any(|(_, session)| session.active[role]),
        Kind::SessionHistory => line.sessions[request.session].history[role],
        Kind::UserHistory => line.history[role],
    };
    exclusion.members.iter().copied().filter(|role| counts(*role)).collect()
}
