//! How a policy image is written: each entry as its words, the end word by the balance.

/// The most words of an image.
pub const MOST_WORDS: usize = 4096;

pub fn head(users: u32, roles: u32, permissions: u32) -> u32 {
    (1 << 28) + (users << 21) + (roles << 14) + (permissions << 5)
}

pub fn assignment(user: u32, role: u32) -> u32 {
    (2 << 28) + (user << 22) + (role << 16)
}

pub fn grant(role: u32, permission: u32) -> u32 {
    (3 << 28) + (role << 22) + (permission << 14)
}

pub fn senior(senior: u32, junior: u32) -> u32 {
    (4 << 28) + (senior << 22) + (junior << 16)
}

/// The first word of an exclusion: its kind (01: which), its n and its size (m).
pub fn exclusion_head(kind: u32, n: u32, size: u32) -> u32 {
    (5 << 28) + (kind << 26) + (n << 19) + (size << 12)
}

pub fn member(role: u32) -> u32 {
    (6 << 28) + (role << 22)
}

/// An exclusion with its member words.
pub fn exclusion(kind: u32, n: u32, members: &[u32]) -> Vec<u32> {
    let mut words = vec![exclusion_head(kind, n, members.len() as u32)];
    words.extend(members.iter().map(|role| member(*role)));
    words
}

/// A limit (001: CARD): fewer than `limit` (02: t) sessions, over all users, may hold the role.
pub fn limit(role: u32, limit: u32) -> u32 {
    (7 << 28) + (role << 22) + (limit << 13)
}

/// The end word that balances these words.
pub fn end(words: &[u32]) -> u32 {
    let sum = words.iter().fold(0u32, |sum, word| sum.wrapping_add(*word));
    0xF000_0000 | (sum.wrapping_neg() & 0x0FFF_FFFF)
}

/// The words with their end word.
pub fn closed(mut words: Vec<u32>) -> Vec<u32> {
    words.push(end(&words));
    words
}

/// The low 28 bits of the last word set so that the sum balances, whatever its kind.
pub fn rebalance(words: &mut [u32]) {
    if let Some((last, others)) = words.split_last_mut() {
        *last = (*last & 0xF000_0000) | (end(others) & 0x0FFF_FFFF);
    }
}

/// The bytes of words, the lowest byte first.
pub fn bytes(words: &[u32]) -> Vec<u8> {
    words.iter().flat_map(|word| word.to_le_bytes()).collect()
}

/// The words of bytes, an odd rest left out.
pub fn from_bytes(bytes: &[u8]) -> Vec<u32> {
    bytes.chunks_exact(4).map(|four| u32::from_le_bytes([four[0], four[1], four[2], four[3]])).collect()
}
