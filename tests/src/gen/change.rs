//! Policies that follow each other at a site: one thing more or one less, numbers kept, what is added at the end.

use super::policy::Draft;
use super::Rng;

/// The ways in which a policy changes.
#[derive(Clone, Copy, Debug, PartialEq, Eq)]
pub enum Change {
    Gains(Entry),
    Loses(Entry),
    /// A user loses every assignment, and keeps the number.
    UserLeaves,
    UsersAdded,
    RolesAdded,
    PermissionsAdded,
}

#[derive(Clone, Copy, Debug, PartialEq, Eq)]
pub enum Entry {
    Assignment,
    Grant,
    Senior,
    Exclusion,
    Limit,
}

const ENTRIES: [Entry; 5] = [Entry::Assignment, Entry::Grant, Entry::Senior, Entry::Exclusion, Entry::Limit];

/// Every way.
pub fn ways() -> Vec<Change> {
    let entries = ENTRIES.iter().flat_map(|entry| [Change::Gains(*entry), Change::Loses(*entry)]);
    entries.chain([Change::UserLeaves, Change::UsersAdded, Change::RolesAdded, Change::PermissionsAdded]).collect()
}

impl Entry {
    fn kind(self) -> u32 {
        match self {
            Entry::Assignment => 2,
            Entry::Grant => 3,
            Entry::Senior => 4,
            Entry::Exclusion => 5,
            Entry::Limit => 7,
        }
    }
}

fn gain(rng: &mut Rng, draft: &mut Draft, entry: Entry) {
    match entry {
        Entry::Assignment => {
            let user = rng.below(draft.users.into()) as u32;
            draft.assign(rng, user, 1);
        }
        Entry::Grant => {
            let role = rng.below(draft.roles.into()) as u32;
            draft.grant(rng, role);
        }
        Entry::Senior => draft.order(rng),
        Entry::Exclusion if draft.entries.iter().filter(|entry| entry[0] >> 28 == 5).count() < 32 => draft.exclude(rng),
        Entry::Exclusion => {}
        Entry::Limit => draft.limit(rng),
    }
}

/// Some more of a number that is at most `most`.
fn more(rng: &mut Rng, number: u32, most: u32) -> u32 {
    most.min(number + rng.from_to(1, 3) as u32)
}

/// The policy changed in one way, as far as there is room for it.
pub fn change(rng: &mut Rng, before: &Draft, way: Change) -> Draft {
    let mut draft = before.clone();
    match way {
        Change::Gains(entry) => gain(rng, &mut draft, entry),
        Change::Loses(entry) => {
            let there: Vec<usize> =
                (0..draft.entries.len()).filter(|place| draft.entries[*place][0] >> 28 == entry.kind()).collect();
            if !there.is_empty() {
                let gone = draft.entries[rng.pick(&there)].clone();
                draft.entries.retain(|entry| *entry != gone);
            }
        }
        Change::UserLeaves => {
            let user = rng.below(draft.users.into()) as u32;
            draft.entries.retain(|entry| entry[0] >> 28 != 2 || entry[0] >> 22 & 63 != user);
        }
        Change::UsersAdded => draft.users = more(rng, draft.users, 64),
        Change::RolesAdded => draft.roles = more(rng, draft.roles, 64),
        Change::PermissionsAdded => draft.permissions = more(rng, draft.permissions, 256),
    }
    draft.fit(rng);
    draft
}
