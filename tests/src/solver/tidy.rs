//! The tidy image: what an accepted image says, each thing once and in one order.

use super::filled::Filled;
use super::image::judge;
use super::policy::{Exclusion, Policy};
use std::collections::BTreeMap;

/// The tidy call on an image, for a buffer of this length.
pub fn write(image: &[u8], room: usize) -> Filled {
    let policy = match judge(image) {
        Ok(policy) => policy,
        Err(refused) => return Filled::as_check(&refused),
    };
    let words = words(&policy);
    if room < 4 * words.len() {
        return Filled::refused(19, 0);
    }
    let mut bytes = Vec::new();
    for mut word in words.iter().copied() {
        for _ in 0..4 {
            bytes.push((word % 256) as u8);
            word /= 256;
        }
    }
    Filled::done(words.len() as u64, bytes)
}

/// A word: its kind and its fields, each with the bit that it starts at.
fn word(kind: usize, fields: &[(usize, u32)]) -> u64 {
    let mut word = kind as u64 * 2u64.pow(28);
    for (value, low) in fields {
        word += *value as u64 * 2u64.pow(*low);
    }
    word
}

/// The words of the tidy image of a policy: head, assignments, grants, seniors, exclusions, limits, end.
pub fn words(policy: &Policy) -> Vec<u64> {
    let mut words = vec![word(1, &[(policy.users, 21), (policy.roles, 14), (policy.permissions, 5)])];
    for (user, roles) in policy.assigned.iter().enumerate() {
        words.extend(roles.iter().map(|role| word(2, &[(user, 22), (*role, 16)])));
    }
    for (role, permissions) in policy.granted.iter().enumerate() {
        words.extend(permissions.iter().map(|permission| word(3, &[(role, 22), (*permission, 14)])));
    }
    for (senior, juniors) in policy.juniors.iter().enumerate() {
        words.extend(juniors.iter().map(|junior| word(4, &[(senior, 22), (*junior, 16)])));
    }
    for exclusion in in_order(&policy.exclusions) {
        let (n, size) = (exclusion.n, exclusion.members.len());
        words.push(word(5, &[(exclusion.kind as usize, 26), (n, 19), (size, 12)]));
        words.extend(exclusion.members.iter().map(|role| word(6, &[(*role, 22)])));
    }
    words.extend(policy.limits.iter().map(|(role, limit)| word(7, &[(*role, 22), (*limit, 13)])));
    let rest = words.iter().sum::<u64>() % 2u64.pow(28);
    words.push(word(15, &[((2usize.pow(28) - rest as usize) % 2usize.pow(28), 0)]));
    words
}

/// The exclusions by kind, n and set number, each once.
pub fn in_order(exclusions: &[Exclusion]) -> Vec<&Exclusion> {
    let mut ordered = BTreeMap::new();
    for exclusion in exclusions {
        let number: u128 = exclusion.members.iter().map(|role| 2u128.pow(*role as u32)).sum();
        ordered.insert((exclusion.kind, exclusion.n, number), exclusion);
    }
    ordered.into_values().collect()
}
