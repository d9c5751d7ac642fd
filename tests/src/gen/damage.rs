//! Damaged images: each refusal of the check aimed at, and damage at random.

use super::hierarchy::reaching;
use super::policy::{any, Draft};
use super::Rng;
use crate::words;

/// An image for the check: in good order, damaged towards one refusal, or damaged at random.
pub fn image(rng: &mut Rng) -> Vec<u8> {
    let draft = any(rng);
    let words = match rng.below(18) {
        0..=1 => return words::bytes(&draft.words()),
        2 => return length(rng, draft),
        3 => head(rng, draft),
        4..=5 => kind(rng, draft),
        6..=7 => spare(rng, draft),
        8 => range(rng, draft),
        9 => repeat(rng, draft),
        10 => crowd(rng, draft),
        11 => return balance(rng, draft),
        12 => soup(rng),
        13 => tied(rng, draft),
        14 => return words::bytes(&reaching(rng).words()),
        _ => return at_random(rng, draft),
    };
    balanced(rng, words)
}

/// The bytes of words, mostly brought into balance first.
fn balanced(rng: &mut Rng, mut words: Vec<u32>) -> Vec<u8> {
    if !rng.one_in(8) {
        words::rebalance(&mut words);
    }
    words::bytes(&words)
}

/// A place after the head, where there is one.
fn place(rng: &mut Rng, words: &[u32]) -> usize {
    if words.len() < 2 {
        return 0;
    }
    1 + rng.place(words.len() - 1)
}

/// Towards 1: a length that is too small, too large or no multiple of four.
fn length(rng: &mut Rng, draft: Draft) -> Vec<u8> {
    let mut bytes = words::bytes(&draft.words());
    match rng.below(5) {
        0 => bytes.truncate(rng.place(9)),
        1 => bytes.truncate(rng.place(bytes.len())),
        2 => bytes.push(rng.draw() as u8),
        3 => {
            let filler = words::grant(0, 0).to_le_bytes();
            let most = 4 * words::MOST_WORDS + rng.pick(&[0, 1, 4, 8, 400]);
            while bytes.len() + 4 <= most {
                let end = bytes.len() - 4;
                bytes.splice(end..end, filler);
            }
            bytes.resize(most, 0);
        }
        _ => bytes.truncate(bytes.len() - rng.from_to(1, 3) as usize),
    }
    bytes
}

/// Towards 2: another kind, a number outside its range, a spare bit.
fn head(rng: &mut Rng, draft: Draft) -> Vec<u32> {
    let mut words = draft.words();
    let (users, roles, permissions) = (draft.users, draft.roles, draft.permissions);
    words[0] = match rng.below(6) {
        0 => (words[0] & 0x0FFF_FFFF) | ((rng.below(16) as u32) << 28),
        1 => words::head(rng.pick(&[0, 65, 66, 127]), roles, permissions),
        2 => words::head(users, rng.pick(&[0, 65, 66, 127]), permissions),
        3 => words::head(users, roles, rng.pick(&[0, 257, 258, 511])),
        4 => words[0] | (1 << rng.below(5)),
        _ => words[0] ^ (1 << rng.below(32)),
    };
    words
}

/// Towards 3: kinds where they may not stand, members missing or not due, a limit among them, the end missing or early.
fn kind(rng: &mut Rng, draft: Draft) -> Vec<u32> {
    let mut words = draft.words();
    let at = place(rng, &words);
    let wrong = rng.pick(&[0u32, 1, 8, 9, 10, 11, 12, 13, 14, 15, 6, 6, 15]) << 28;
    match rng.below(8) {
        0 => words[at] = (words[at] & 0x0FFF_FFFF) | wrong,
        1 => words.insert(at, wrong),
        2 => {
            words.remove(at);
        }
        3 => {
            words.pop();
        }
        4 => {
            let last = words.len() - 1;
            words[last] = (words[last] & 0x0FFF_FFFF) | (rng.below(15) as u32) << 28;
        }
        5 => words.insert(at, words::limit(0, 2)),
        6 => {
            let last = words.len() - 1;
            words[last] = words::limit(0, 2);
        }
        _ => {
            let last = words.len() - 1;
            let size = rng.from_to(draft.roles.min(2).into(), draft.roles.into()) as u32;
            words.insert(last, words::exclusion_head(rng.below(4) as u32, 2, size));
            for role in 0..rng.below(size.into()) as u32 {
                words.insert(words.len() - 1, words::member(role));
            }
        }
    }
    words
}

/// Towards 4: a spare bit in a word of the kinds 2 to 7.
fn spare(rng: &mut Rng, draft: Draft) -> Vec<u32> {
    let mut words = draft.words();
    let at = place(rng, &words);
    let bits = [0, 0, 16, 14, 16, 12, 22, 13, 0][(words[at] >> 28).min(8) as usize];
    if bits > 0 {
        words[at] |= 1 << rng.below(bits);
    }
    words
}

/// An entry put in at a place that no member is due at, most times.
fn put(rng: &mut Rng, mut draft: Draft, entry: Vec<u32>) -> Vec<u32> {
    let at = rng.place(draft.entries.len() + 1);
    draft.entries.insert(at, entry);
    draft.words()
}

/// Towards 5: a number at or above U, R or P; a size or a limit, of an exclusion or of a role, out of range.
fn range(rng: &mut Rng, draft: Draft) -> Vec<u32> {
    let (users, roles, permissions) = (draft.users, draft.roles, draft.permissions);
    let user = rng.from_to(users.into(), 64).min(63) as u32;
    let role = rng.from_to(roles.into(), 64).min(63) as u32;
    let permission = rng.from_to(permissions.into(), 256).min(255) as u32;
    let size = rng.from_to(1, roles.into()) as u32;
    let entry = match rng.below(11) {
        0 => vec![words::assignment(user, 0)],
        1 => vec![words::assignment(0, role)],
        2 => vec![words::grant(role, 0)],
        3 => vec![words::grant(0, permission)],
        4 => vec![words::senior(role, 0)],
        5 => vec![words::senior(0, role)],
        6 => vec![words::limit(role, rng.from_to(2, 256) as u32)],
        7 => vec![words::limit(0, rng.pick(&[0, 1, 257, 258, 511]))],
        8 => vec![words::exclusion_head(rng.below(4) as u32, rng.below(128) as u32, rng.pick(&[0, roles + 1, 127]))],
        9 => {
            let members: Vec<u32> = (0..size).collect();
            words::exclusion(rng.below(4) as u32, rng.pick(&[0, 1, 1, size + 1, 127]), &members)
        }
        _ => words::exclusion(rng.below(4) as u32, 2, &rng.pick(&[[0, role], [role, 0]])),
    };
    put(rng, draft, entry)
}

/// Towards 6: a member twice in an exclusion, a role over itself.
fn repeat(rng: &mut Rng, draft: Draft) -> Vec<u32> {
    let count = rng.from_to(1, 6) as usize;
    let mut members = draft.some_roles(rng, count);
    let role = rng.pick(&members);
    if rng.one_in(3) {
        return put(rng, draft, vec![words::senior(role, role)]);
    }
    let at = rng.place(members.len() + 1);
    members.insert(at, role);
    let entry = words::exclusion(rng.below(4) as u32, 2, &members);
    put(rng, draft, entry)
}

/// Towards 7: many different roles for a user, many exclusions, about as many as may be.
fn crowd(rng: &mut Rng, mut draft: Draft) -> Vec<u32> {
    draft.roles = draft.roles.max(rng.from_to(16, 40) as u32);
    if rng.one_in(2) {
        let user = rng.below(draft.users.into()) as u32;
        let count = rng.from_to(15, 18) as usize;
        draft.assign(rng, user, count);
    } else {
        for _ in 0..rng.from_to(28, 34) {
            let roles = draft.some_roles(rng, 2);
            draft.entries.push(words::exclusion(rng.below(4) as u32, 2, &roles));
        }
    }
    rng.shuffle(&mut draft.entries);
    draft.words()
}

/// Towards 8: one bit of the end's 28 or of an entry's field.
fn balance(rng: &mut Rng, draft: Draft) -> Vec<u8> {
    let mut words = draft.words();
    let last = words.len() - 1;
    if rng.one_in(2) {
        words[last] ^= 1 << rng.below(28);
    } else {
        let at = place(rng, &words);
        words[at] ^= 1 << rng.from_to(14, 27);
    }
    words::bytes(&words)
}

/// Towards 22: one or more loops of senior words.
fn tied(rng: &mut Rng, mut draft: Draft) -> Vec<u32> {
    for _ in 0..rng.from_to(1, 3) {
        let count = rng.from_to(2, draft.roles.max(2).into()) as usize;
        draft.tie(rng, count);
    }
    rng.shuffle(&mut draft.entries);
    draft.words()
}

/// Words at random, most of kinds that may stand, under a small head.
fn soup(rng: &mut Rng) -> Vec<u32> {
    let mut words = vec![words::head(rng.from_to(1, 4) as u32, rng.from_to(1, 8) as u32, rng.from_to(1, 16) as u32)];
    for _ in 0..rng.below(12) {
        let kind = rng.pick(&[2u32, 3, 4, 5, 6, 7, 2, 3, 4, 15, 0, 9]) << 28;
        let fields = rng.draw() as u32 & 0x0FFF_FFFF;
        words.push(kind | if rng.one_in(4) { fields } else { fields & 0x00C7_0000 });
    }
    words.push(0xF000_0000);
    words
}

/// Bits turned, words swapped, inserted, removed and repeated, in and out of balance.
fn at_random(rng: &mut Rng, draft: Draft) -> Vec<u8> {
    let mut words = draft.words();
    for _ in 0..rng.from_to(1, 3) {
        let (at, other) = (place(rng, &words), place(rng, &words));
        match rng.below(7) {
            0..=1 => words[at] ^= 1 << rng.below(32),
            2 => words.swap(at, other),
            3 => words.insert(at, rng.draw() as u32),
            4 => {
                words.remove(at);
            }
            5 => words.insert(at, words[other]),
            _ => words[at] = words[other],
        }
        if words.is_empty() {
            break;
        }
    }
    if rng.one_in(2) {
        words::rebalance(&mut words);
    }
    let mut bytes = words::bytes(&words);
    if rng.one_in(20) && !bytes.is_empty() {
        bytes.truncate(rng.place(bytes.len()));
    }
    bytes
}
