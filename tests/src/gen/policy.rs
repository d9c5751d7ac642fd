//! Images that say something in good order: policies of all sizes, entries in any order, repeats, hierarchies without a
//! loop in which no user reaches more than 16 roles.

use super::Rng;
use crate::solver::image::judge;
use crate::solver::policy::Policy;
use crate::words;

/// A policy as entries still to be ordered, each with all of its words.
#[derive(Clone, Debug)]
pub struct Draft {
    pub users: u32,
    pub roles: u32,
    pub permissions: u32,
    pub entries: Vec<Vec<u32>>,
}

/// How large a policy is drawn: the most of each thing.
#[derive(Clone, Copy, Debug)]
pub struct Size {
    pub users: u64,
    pub roles: u64,
    pub permissions: u64,
    pub roles_of_a_user: u64,
    pub grants_of_a_role: u64,
    pub seniors: u64,
    pub exclusions: u64,
}

pub const TINY: Size =
    Size { users: 2, roles: 4, permissions: 6, roles_of_a_user: 4, grants_of_a_role: 3, seniors: 2, exclusions: 2 };
pub const SMALL: Size =
    Size { users: 4, roles: 8, permissions: 12, roles_of_a_user: 7, grants_of_a_role: 4, seniors: 5, exclusions: 5 };
pub const MIDDLE: Size =
    Size { users: 9, roles: 20, permissions: 70, roles_of_a_user: 9, grants_of_a_role: 9, seniors: 12, exclusions: 12 };
pub const WIDE: Size =
    Size { users: 64, roles: 64, permissions: 256, roles_of_a_user: 8, grants_of_a_role: 12, seniors: 60, exclusions: 32 };
pub const LARGE: Size =
    Size { users: 64, roles: 64, permissions: 256, roles_of_a_user: 16, grants_of_a_role: 12, seniors: 60, exclusions: 32 };

/// The policy of an image in good order.
pub fn accepted(image: &[u8]) -> Policy {
    judge(image).expect("a policy in good order is accepted")
}

impl Draft {
    pub fn blank(users: u32, roles: u32, permissions: u32) -> Draft {
        Draft { users, roles, permissions, entries: Vec::new() }
    }

    /// Its image, and the policy that a check reads off it.
    pub fn built(&self) -> (Vec<u8>, Policy) {
        let image = words::bytes(&self.words());
        let policy = accepted(&image);
        (image, policy)
    }

    /// The words: head, entries, end.
    pub fn words(&self) -> Vec<u32> {
        let mut words = vec![words::head(self.users, self.roles, self.permissions)];
        words.extend(self.entries.iter().flatten());
        words::closed(words)
    }

    /// How many words the image has.
    pub fn length(&self) -> usize {
        2 + self.entries.iter().map(Vec::len).sum::<usize>()
    }

    fn role(&self, rng: &mut Rng) -> u32 {
        rng.below(self.roles.into()) as u32
    }

    /// Some different roles, in any order.
    pub fn some_roles(&self, rng: &mut Rng, count: usize) -> Vec<u32> {
        let mut roles: Vec<u32> = (0..self.roles).collect();
        rng.shuffle(&mut roles);
        roles.truncate(count);
        roles
    }

    pub fn assign(&mut self, rng: &mut Rng, user: u32, count: usize) {
        let roles = self.some_roles(rng, count);
        self.entries.extend(roles.iter().map(|role| vec![words::assignment(user, *role)]));
    }

    pub fn grant(&mut self, rng: &mut Rng, role: u32) {
        let permission = rng.below(self.permissions.into()) as u32;
        self.entries.push(vec![words::grant(role, permission)]);
    }

    /// Roles for each user, `least` of them or more, and grants for each role, `most` of them or fewer.
    fn share(&mut self, rng: &mut Rng, least: u64, most: u64) {
        for user in 0..self.users {
            let count = rng.from_to(least, self.roles.into()) as usize;
            self.assign(rng, user, count);
        }
        for role in 0..self.roles {
            for _ in 0..rng.from_to(1, most) {
                self.grant(rng, role);
            }
        }
    }

    /// A senior word between two different roles, where there are two, and the way round that closes no loop.
    pub fn order(&mut self, rng: &mut Rng) {
        let two = self.some_roles(rng, 2);
        self.order_two(&two);
    }

    /// The same between two of these roles.
    pub fn order_of(&mut self, rng: &mut Rng, roles: &[u32]) {
        let mut roles = roles.to_vec();
        rng.shuffle(&mut roles);
        roles.truncate(2);
        self.order_two(&roles);
    }

    fn order_two(&mut self, roles: &[u32]) {
        if let [one, other] = *roles {
            let below = reached(&self.rows(4), 1 << other);
            let (senior, junior) = if below >> one & 1 == 1 { (other, one) } else { (one, other) };
            self.entries.push(vec![words::senior(senior, junior)]);
        }
    }

    /// What the entries of a kind say by their first two fields: a row of second numbers for each first one.
    fn rows(&self, kind: u32) -> [u64; 64] {
        let mut rows = [0u64; 64];
        for entry in self.entries.iter().filter(|entry| entry[0] >> 28 == kind) {
            rows[(entry[0] >> 22 & 63) as usize] |= 1 << (entry[0] >> 16 & 63);
        }
        rows
    }

    /// How many roles each user may activate.
    pub fn reaches(&self) -> Vec<u32> {
        let juniors = self.rows(4);
        self.rows(2)[..self.users as usize].iter().map(|own| reached(&juniors, *own).count_ones()).collect()
    }

    /// Takes assignments away until no user reaches more than 16 roles.
    pub fn fit(&mut self, rng: &mut Rng) {
        let (juniors, mut assigned) = (self.rows(4), self.rows(2));
        for own in &mut assigned {
            while reached(&juniors, *own).count_ones() > 16 {
                let roles: Vec<u32> = (0..64).filter(|role| *own >> role & 1 == 1).collect();
                *own &= !(1 << rng.pick(&roles));
            }
        }
        let kept = |word: u32| assigned[(word >> 22 & 63) as usize] >> (word >> 16 & 63) & 1 == 1;
        self.entries.retain(|entry| entry[0] >> 28 != 2 || kept(entry[0]));
    }

    /// A loop of senior words through some roles, in any order, where there are two roles.
    pub fn tie(&mut self, rng: &mut Rng, count: usize) {
        let roles = self.some_roles(rng, count.max(2));
        if roles.len() > 1 {
            let next = roles.iter().cycle().skip(1);
            self.entries.extend(roles.iter().zip(next).map(|(senior, junior)| vec![words::senior(*senior, *junior)]));
        }
    }

    /// An exclusion of any kind, where there are two roles: mostly of few members and an n of 2, at times of all
    /// roles.
    pub fn exclude(&mut self, rng: &mut Rng) {
        if self.roles < 2 {
            return;
        }
        let most = if rng.one_in(6) { self.roles } else { self.roles.min(5) };
        let size = rng.from_to(2, most.into());
        let members = self.some_roles(rng, size as usize);
        let n = if rng.one_in(2) { 2 } else { rng.from_to(2, size) };
        self.entries.push(words::exclusion(rng.below(4) as u32, n as u32, &members));
    }

    /// A limit of any role: small mostly, at times the least or the largest that there is.
    pub fn limit(&mut self, rng: &mut Rng) {
        let (role, small) = (self.role(rng), rng.from_to(2, 8) as u32);
        let limit = rng.pick(&[2, 2, 3, small, small, small, 256]);
        self.entries.push(vec![words::limit(role, limit)]);
    }

    /// Limits of some roles, a role's second one at times, in any place.
    pub fn limit_some(&mut self, rng: &mut Rng) {
        for _ in 0..rng.from_to(1, 1 + u64::from(self.roles.min(12))) {
            self.limit(rng);
        }
        rng.shuffle(&mut self.entries);
    }

    /// The same policy but for the roles assigned to others than `user`, its entries in another order.
    pub fn others_redrawn(&self, rng: &mut Rng, user: u32) -> Draft {
        let mut draft = self.clone();
        draft
            .entries
            .retain(|entry| entry[0] >> 28 != 2 || entry[0] >> 16 << 16 == words::assignment(user, (entry[0] >> 16) & 63));
        for other in (0..self.users).filter(|other| *other != user) {
            let count = rng.from_to(0, 8) as usize;
            draft.assign(rng, other, count);
        }
        draft.fit(rng);
        rng.shuffle(&mut draft.entries);
        draft
    }

    /// Repeats an entry that is no exclusion, one with few words.
    pub fn repeat(&mut self, rng: &mut Rng) {
        if !self.entries.is_empty() {
            let entry = rng.pick(&self.entries);
            if entry.len() == 1 {
                self.entries.push(entry);
            }
        }
    }
}

/// The roles that chains of senior words reach from these, themselves among them.
fn reached(juniors: &[u64; 64], from: u64) -> u64 {
    let (mut found, mut waiting) = (from, from);
    while waiting != 0 {
        let new = juniors[waiting.trailing_zeros() as usize] & !found;
        found |= new;
        waiting = waiting & (waiting - 1) | new;
    }
    found
}

/// A policy of at most this size.
pub fn policy(rng: &mut Rng, size: Size) -> Draft {
    let numbers = [rng.from_to(1, size.users), rng.from_to(1, size.roles), rng.from_to(1, size.permissions)];
    let mut draft = Draft::blank(numbers[0] as u32, numbers[1] as u32, numbers[2] as u32);
    for user in 0..draft.users {
        let count = rng.from_to(0, size.roles_of_a_user).max(rng.from_to(0, size.roles_of_a_user)) as usize;
        draft.assign(rng, user, count);
    }
    for role in 0..draft.roles {
        for _ in 0..rng.from_to(0, size.grants_of_a_role) {
            draft.grant(rng, role);
        }
    }
    for _ in 0..rng.from_to(0, size.seniors) {
        draft.order(rng);
    }
    for _ in 0..rng.from_to(0, size.exclusions) {
        draft.exclude(rng);
    }
    for _ in 0..rng.below(4) {
        draft.repeat(rng);
    }
    draft.fit(rng);
    rng.shuffle(&mut draft.entries);
    draft
}

/// A small policy of two users or more.
pub fn of_several(rng: &mut Rng) -> Draft {
    let mut draft = policy(rng, SMALL);
    draft.users = draft.users.max(2);
    draft
}

/// A policy whose head stands at the limits, one way or the other.
pub fn limits(rng: &mut Rng) -> Draft {
    let mut draft = policy(rng, SMALL);
    (draft.users, draft.roles, draft.permissions) = (64, 64, 256);
    for _ in 0..rng.below(20) {
        let last = [
            vec![words::assignment(63, 63)],
            vec![words::grant(63, 255)],
            vec![words::senior(63, draft.role(rng) % 63)],
            words::exclusion(3, 64, &draft.some_roles(rng, 64)),
        ];
        let entry = rng.pick(&last);
        let exclusions = draft.entries.iter().filter(|entry| entry.len() > 1).count();
        if entry.len() == 1 || exclusions < 20 {
            draft.entries.push(entry);
        }
    }
    if rng.one_in(3) {
        return Draft::blank(rng.pick(&[1, 64]), rng.pick(&[1, 64]), rng.pick(&[1, 256]));
    }
    draft.fit(rng);
    rng.shuffle(&mut draft.entries);
    draft
}

/// A user 0 of 16 roles, with none below them but themselves, under `exclusions` exclusions over them, permissions
/// spread over the roles.
pub fn crowded(rng: &mut Rng, exclusions: u64) -> Draft {
    let mut draft = Draft::blank(rng.from_to(1, 3) as u32, rng.from_to(16, 64) as u32, rng.from_to(8, 256) as u32);
    let own = draft.some_roles(rng, 16);
    draft.entries.extend(own.iter().map(|role| vec![words::assignment(0, *role)]));
    for user in 1..draft.users {
        let count = rng.from_to(0, 16) as usize;
        draft.assign(rng, user, count);
    }
    let grants = rng.from_to(1, 12);
    for role in &own {
        for _ in 0..grants {
            draft.grant(rng, *role);
        }
    }
    let others: Vec<u32> = (0..draft.roles).filter(|role| !own.contains(role)).collect();
    for _ in 0..rng.below(10) {
        let among = rng.pick(&[&own, &others]);
        draft.order_of(rng, among);
    }
    draft.fit(rng);
    for _ in 0..exclusions {
        let mut members = own.clone();
        rng.shuffle(&mut members);
        members.truncate(rng.from_to(2, 12) as usize);
        let n = rng.from_to(2, members.len() as u64) as u32;
        draft.entries.push(words::exclusion(rng.below(4) as u32, n, &members));
    }
    rng.shuffle(&mut draft.entries);
    draft
}

/// Users whose roles carry much the same: few permissions, each carried by several roles.
pub fn overlapping(rng: &mut Rng) -> Draft {
    let mut draft = Draft::blank(rng.from_to(1, 3) as u32, rng.from_to(5, 9) as u32, rng.from_to(4, 8) as u32);
    draft.share(rng, 5, 4);
    for _ in 0..rng.below(3) {
        draft.exclude(rng);
    }
    rng.shuffle(&mut draft.entries);
    draft
}

/// A policy with limits: several users who share roles, few permissions, few exclusions.
pub fn limited(rng: &mut Rng) -> Draft {
    let mut draft = Draft::blank(rng.from_to(2, 6) as u32, rng.from_to(2, 7) as u32, rng.from_to(2, 8) as u32);
    draft.share(rng, 1, 3);
    if rng.one_in(3) {
        draft.order(rng);
    }
    if rng.one_in(3) {
        draft.exclude(rng);
    }
    draft.limit_some(rng);
    draft
}

/// An image of 4,096 words: 64 users of 16 roles each, chains of seniors, 32 exclusions of all 64 roles, grants.
pub fn largest() -> Vec<u8> {
    let mut list = vec![words::head(64, 64, 256)];
    list.extend((0..64).flat_map(|user| (0..16).map(move |role| words::assignment(user, user % 4 * 16 + role))));
    list.extend((0..64).filter(|role| role % 16 != 15).map(|role| words::senior(role, role + 1)));
    let all: Vec<u32> = (0..64).collect();
    list.extend((0..32).flat_map(|number| words::exclusion(number % 4, 33 + number % 32, &all)));
    while list.len() < words::MOST_WORDS - 1 {
        list.push(words::grant(list.len() as u32 % 64, list.len() as u32 % 256));
    }
    words::bytes(&words::closed(list))
}

/// A policy of exactly `length` words, at least 4,000: filled up with repeats and grants.
pub fn filled(rng: &mut Rng, length: usize) -> Draft {
    let mut draft = policy(rng, LARGE);
    draft.grant(rng, 0);
    for _ in draft.length()..length {
        let entry = rng.pick(&draft.entries);
        if entry.len() == 1 && rng.one_in(2) {
            draft.entries.push(entry);
        } else {
            let role = draft.role(rng);
            draft.grant(rng, role);
        }
    }
    rng.shuffle(&mut draft.entries);
    draft
}

/// A policy of any size, small ones mostly, at times with limits.
pub fn any(rng: &mut Rng) -> Draft {
    let mut draft = any_size(rng);
    if rng.one_in(4) && draft.length() < 4_000 {
        draft.limit_some(rng);
    }
    draft
}

fn any_size(rng: &mut Rng) -> Draft {
    match rng.below(64) {
        0..=23 => policy(rng, TINY),
        24..=49 => policy(rng, SMALL),
        50..=57 => policy(rng, MIDDLE),
        58..=59 => policy(rng, LARGE),
        60 => limits(rng),
        61..=62 => {
            let exclusions = rng.pick(&[0, 8, 31, 32]);
            crowded(rng, exclusions)
        }
        _ => {
            let length = if rng.one_in(2) { words::MOST_WORDS } else { rng.from_to(4000, 4096) as usize };
            filled(rng, length)
        }
    }
}
