//! The images that the calls are timed on.

use nutrameza_tests::gen::{policy, Rng};
use nutrameza_tests::{ward, words};

/// An image by its name, and how many users it has.
pub struct Image {
    pub name: &'static str,
    pub users: usize,
    pub bytes: Vec<u8>,
}

fn of_64(name: &'static str, bytes: Vec<u8>) -> Image {
    Image { name, users: 64, bytes }
}

/// Image A, and 4,096 words in several orders.
pub fn in_all_orders() -> Vec<Image> {
    let mut images = vec![Image { name: "13 words", users: 1, bytes: ward::image_a() }];
    images.extend(largest_in_all_orders());
    images
}

/// 4,096 words: of all kinds, one kind after the other and in any order, and nearly all of one kind.
pub fn largest_in_all_orders() -> [Image; 5] {
    [
        of_64("4,096 words, by kind", largest(true)),
        of_64("4,096 words, in any order", largest(false)),
        of_64("4,096 words, grants", grants()),
        of_64("4,096 words, assignments", assignments()),
        of_64("4,096 words, senior words", seniors()),
    ]
}

/// An accepted image of 4,096 words: 64 users, 64 roles, 256 permissions, 32 exclusions; entries by kind or in any
/// order. The roles are four groups of 16 with senior words in each, and a user may activate those of a group.
pub fn largest(in_order: bool) -> Vec<u8> {
    let mut rng = Rng::new(4096);
    let mut draft = policy::Draft::blank(64, 64, 256);
    let roles = draft.some_roles(&mut rng, 64);
    let groups: Vec<&[u32]> = roles.chunks(16).collect();
    for user in 0..64 {
        let group = rng.pick(&groups);
        draft.entries.extend(group.iter().map(|role| vec![words::assignment(user, *role)]));
    }
    for _ in 0..200 {
        let group = rng.pick(&groups);
        draft.order_of(&mut rng, group);
    }
    for _ in 0..32 {
        let members = draft.some_roles(&mut rng, 8);
        draft.entries.push(words::exclusion(rng.below(4) as u32, 5, &members));
    }
    while draft.length() < words::MOST_WORDS {
        let role = rng.below(64) as u32;
        draft.grant(&mut rng, role);
    }
    if !in_order {
        rng.shuffle(&mut draft.entries);
    }
    words::bytes(&draft.words())
}

/// 64 users, 64 roles and 256 permissions, and so that every call has something to do: the last user has role 0, and
/// role 0 a permission.
fn with_one_user() -> policy::Draft {
    let mut draft = policy::Draft::blank(64, 64, 256);
    draft.entries.push(vec![words::assignment(63, 0)]);
    draft.entries.push(vec![words::grant(0, 31)]);
    draft
}

/// Grants in any order, and little else.
fn grants() -> Vec<u8> {
    let (mut rng, mut draft) = (Rng::new(3), with_one_user());
    while draft.length() < words::MOST_WORDS {
        let role = rng.below(64) as u32;
        draft.grant(&mut rng, role);
    }
    words::bytes(&draft.words())
}

/// Assignments, user after user, 16 roles for each, again and again.
fn assignments() -> Vec<u8> {
    let mut draft = with_one_user();
    let every = (0..64).flat_map(|user| (0..16).map(move |role| vec![words::assignment(user, (user + role) % 64)]));
    let room = words::MOST_WORDS - draft.length();
    draft.entries.extend(every.cycle().filter(|entry| entry[0] >> 22 & 63 != 63).take(room));
    words::bytes(&draft.words())
}

/// Senior words in any order, among four groups of 16 roles, again and again.
fn seniors() -> Vec<u8> {
    let (mut rng, mut draft) = (Rng::new(4), with_one_user());
    while draft.length() < words::MOST_WORDS {
        let (group, one, other) = (16 * rng.below(4) as u32, rng.below(16) as u32, rng.below(16) as u32);
        if one != other {
            draft.entries.push(vec![words::senior(group + one.min(other), group + one.max(other))]);
        }
    }
    words::bytes(&draft.words())
}

/// An image of 4,096 words over a deep hierarchy: the 64 roles stand one below the other, and some 2,000 more senior
/// words lead further down. The users have the lowest 16. The last role alone carries half of the permissions. Where
/// `back` is set, the lowest role closes a loop of them all.
pub fn deep(back: bool) -> Vec<u8> {
    let mut rng = Rng::new(64);
    let mut draft = policy::Draft::blank(64, 64, 256);
    let roles = draft.some_roles(&mut rng, 64);
    let lowest = &roles[48..];
    draft.entries.extend((0..64).flat_map(|user| lowest.iter().map(move |role| vec![words::assignment(user, *role)])));
    draft.entries.extend(roles.windows(2).map(|pair| vec![words::senior(pair[0], pair[1])]));
    if back {
        draft.entries.push(vec![words::senior(roles[63], roles[0])]);
    } else {
        for _ in 0..2_000 {
            let (one, other) = (rng.place(64), rng.place(64));
            if one != other {
                draft.entries.push(vec![words::senior(roles[one.min(other)], roles[one.max(other)])]);
            }
        }
    }
    draft.entries.extend((0..128).map(|permission| vec![words::grant(roles[63], permission)]));
    while draft.length() < words::MOST_WORDS {
        let role = rng.pick(&lowest[..8]);
        draft.grant(&mut rng, role);
    }
    rng.shuffle(&mut draft.entries);
    words::bytes(&draft.words())
}

/// The same under a name.
pub fn deep_image() -> Image {
    of_64("4,096 words, deep hierarchy", deep(false))
}

/// Two roles, one over the other and back, in four words.
pub fn smallest_loop() -> Vec<u8> {
    words::bytes(&words::closed(vec![words::head(1, 2, 1), words::senior(0, 1), words::senior(1, 0)]))
}

/// An image of 4,096 words that says little: a few grants again and again, and one exclusion 32 times.
pub fn repeated() -> Image {
    let mut draft = policy::Draft::blank(64, 64, 256);
    draft.entries.extend((0..32).map(|_| words::exclusion(1, 3, &[9, 4, 60, 33])));
    draft.entries.extend((0..4094 - 32 * 5).map(|n| vec![words::grant(n % 7, 40 * (n % 6))]));
    Rng::new(13).shuffle(&mut draft.entries);
    of_64("4,096 words, mostly repeats", words::bytes(&draft.words()))
}

/// An image of 64 users who have one role each, which stands over fifteen others, and a permission for each role.
pub fn over_fifteen() -> Image {
    let mut draft = policy::Draft::blank(64, 64, 256);
    draft.entries.extend((0..64).map(|user| vec![words::assignment(user, 0)]));
    draft.entries.extend((1..16).map(|role| vec![words::senior(0, role)]));
    draft.entries.extend((0..64).map(|role| vec![words::grant(role, 2 * role + 1)]));
    Rng::new(16).shuffle(&mut draft.entries);
    of_64("one role over fifteen", words::bytes(&draft.words()))
}

/// The image with its last entries before the end replaced by limits of the roles from 0 on, so many, which bar none.
pub fn limited(image: &[u8], limits: u32) -> Vec<u8> {
    let mut list = words::from_bytes(image);
    let end = list.len() - 1;
    for role in 0..limits {
        list[end - 1 - role as usize] = words::limit(role, 256);
    }
    words::rebalance(&mut list);
    words::bytes(&list)
}

/// The image with so many repeats of a grant before its end, which say nothing.
pub fn padded(image: &[u8], repeats: usize) -> Vec<u8> {
    let mut list = words::from_bytes(image);
    let end = list.len() - 1;
    list.splice(end..end, vec![words::grant(0, 1); repeats]);
    words::rebalance(&mut list);
    words::bytes(&list)
}
