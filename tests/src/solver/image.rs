//! The judgement of a policy image: refusals 1 to 8 with their place, 22 with a role, 23 with a user, or the policy
//! that it says.

use super::policy::{Exclusion, Kind, Policy, Roles};

/// Why an image is refused; the extra is the place of the refused word, for 22 the lowest role on a loop, for 23 the
/// lowest user who may activate more than 16 roles.
#[derive(Clone, Copy, Debug, PartialEq, Eq)]
pub struct Refused {
    pub number: u64,
    pub extra: usize,
}

/// The answer of the check.
pub type Judged = Result<Policy, Refused>;

/// A word's field: `width` bits whose lowest is bit `low`.
#[inline(always)]
fn field(word: u32, low: u32, width: u32) -> usize {
    (u64::from(word) / (1 << low) % (1 << width)) as usize
}

fn kind(word: u32) -> usize {
    field(word, 28, 4)
}

/// The words of a byte string whose length is a multiple of four, the lowest byte first.
fn words(bytes: &[u8]) -> Vec<u32> {
    let mut words = Vec::new();
    for four in bytes.chunks(4) {
        let mut word = 0u32;
        for byte in four.iter().rev() {
            word = word * 256 + u32::from(*byte);
        }
        words.push(word);
    }
    words
}

/// What is known after the words that were passed: the policy so far and the members still due.
struct Reading {
    policy: Policy,
    due: usize,
}

/// Judges an image: by 1 to 8, then by 22, then by 23.
pub fn judge(bytes: &[u8]) -> Judged {
    let policy = read(bytes)?;
    if let Some(role) = policy.lowest_on_loop() {
        return Err(Refused { number: 22, extra: role });
    }
    if let Some(user) = policy.lowest_over_reach() {
        return Err(Refused { number: 23, extra: user });
    }
    Ok(policy)
}

/// Judges an image by 1 to 8 alone.
pub fn read(bytes: &[u8]) -> Judged {
    let refused = |number, extra| Err(Refused { number, extra });
    if bytes.len() % 4 != 0 || bytes.len() < 8 || bytes.len() > 16384 {
        return refused(1, 0);
    }
    let words = words(bytes);
    let Some(policy) = head(words[0]) else {
        return refused(2, 0);
    };
    let mut reading = Reading { policy, due: 0 };
    let last = words.len() - 1;
    for place in 1..=last {
        if let Some(number) = reading.wrong(words[place], place == last) {
            return refused(number, place);
        }
        reading.take(words[place]);
    }
    let mut sum = 0u64;
    for word in &words {
        sum += u64::from(*word);
    }
    if sum % 2u64.pow(28) != 0 {
        return refused(8, last);
    }
    Ok(reading.policy)
}

/// The head's numbers, if it is in order.
fn head(word: u32) -> Option<Policy> {
    let (users, roles, permissions) = (field(word, 21, 7), field(word, 14, 7), field(word, 5, 9));
    let ranges = (1..=64).contains(&users) && (1..=64).contains(&roles) && (1..=256).contains(&permissions);
    if kind(word) == 1 && ranges && field(word, 0, 5) == 0 {
        Some(Policy::blank(users, roles, permissions))
    } else {
        None
    }
}

impl Reading {
    /// The lowest of the numbers 3 to 7 whose case this word after the head is.
    fn wrong(&self, word: u32, last: bool) -> Option<u64> {
        if self.kind_wrong(word, last) {
            return Some(3);
        }
        if spare_set(word) {
            return Some(4);
        }
        if self.out_of_range(word) {
            return Some(5);
        }
        if self.repeats(word) {
            return Some(6);
        }
        if self.crowds(word) {
            return Some(7);
        }
        None
    }

    fn kind_wrong(&self, word: u32, last: bool) -> bool {
        let kind = kind(word);
        let unknown = kind == 0 || kind == 1 || (8..=14).contains(&kind);
        let member_not_due = kind == 6 && self.due == 0;
        let no_member_where_due = kind != 6 && self.due > 0;
        let end_before_the_end = kind == 15 && !last;
        let last_not_end = last && kind != 15;
        unknown || member_not_due || no_member_where_due || end_before_the_end || last_not_end
    }

    fn out_of_range(&self, word: u32) -> bool {
        let policy = &self.policy;
        let (first, second) = (field(word, 22, 6), field(word, 16, 6));
        match kind(word) {
            2 => first >= policy.users || second >= policy.roles,
            3 => first >= policy.roles || field(word, 14, 8) >= policy.permissions,
            4 => first >= policy.roles || second >= policy.roles,
            5 => {
                let (n, size) = (field(word, 19, 7), field(word, 12, 7));
                size == 0 || size > policy.roles || n == 0 || n == 1 || n > size
            }
            6 => first >= policy.roles,
            7 => {
                let limit = field(word, 13, 9);
                first >= policy.roles || limit < 2 || limit > 256
            }
            _ => false,
        }
    }

    fn repeats(&self, word: u32) -> bool {
        match kind(word) {
            4 => field(word, 22, 6) == field(word, 16, 6),
            6 => match self.policy.exclusions.last() {
                Some(exclusion) => exclusion.members.contains(&field(word, 22, 6)),
                None => false,
            },
            _ => false,
        }
    }

    fn crowds(&self, word: u32) -> bool {
        match kind(word) {
            2 => match self.policy.assigned.get(field(word, 22, 6)) {
                Some(roles) => roles.len() == 16 && !roles.contains(&field(word, 16, 6)),
                None => false,
            },
            5 => self.policy.exclusions.len() == 32,
            _ => false,
        }
    }

    /// Takes up what a word that is in order says.
    fn take(&mut self, word: u32) {
        let policy = &mut self.policy;
        let (first, second) = (field(word, 22, 6), field(word, 16, 6));
        match kind(word) {
            2 => {
                policy.assigned[first].insert(second);
            }
            3 => {
                policy.granted[first].insert(field(word, 14, 8));
            }
            4 => {
                policy.juniors[first].insert(second);
            }
            5 => {
                let kinds = [Kind::SessionActive, Kind::UserActive, Kind::SessionHistory, Kind::UserHistory];
                policy.exclusions.push(Exclusion {
                    kind: kinds[field(word, 26, 2)],
                    n: field(word, 19, 7),
                    members: Roles::new(),
                });
                self.due = field(word, 12, 7);
            }
            6 => {
                if let Some(exclusion) = policy.exclusions.last_mut() {
                    exclusion.members.insert(first);
                }
                self.due -= 1;
            }
            7 => {
                let smallest = policy.limits.entry(first).or_insert(256);
                *smallest = field(word, 13, 9).min(*smallest);
            }
            _ => {}
        }
    }
}

/// Spare bits are set in a word of the kinds 2 to 7.
fn spare_set(word: u32) -> bool {
    match kind(word) {
        2 => field(word, 0, 16) != 0,
        3 => field(word, 0, 14) != 0,
        4 => field(word, 0, 16) != 0,
        5 => field(word, 0, 12) != 0,
        6 => field(word, 0, 22) != 0,
        7 => field(word, 0, 13) != 0,
        _ => false,
    }
}
