//! The stopped call: whose line of a ledger is not sound under an image.

use super::filled::Filled;
use super::image::Judged;
use super::line::{sound, LINE};

/// The bytes of its buffer: person u is bit u mod 8 of byte u div 8.
pub const USERS: usize = 8;

/// The user is told of.
pub fn names(told: &Filled<[u8; USERS]>, user: usize) -> bool {
    told.bytes.is_some_and(|users| users[user / 8] / 2u8.pow(user as u32 % 8) % 2 == 1)
}

/// The users whose line is not sound under a judged image, in a buffer of this length.
pub fn stopped(image: &Judged, ledger: &[u8], room: usize) -> Filled<[u8; USERS]> {
    let policy = match image {
        Ok(policy) => policy,
        Err(refused) => return Filled::as_check(refused),
    };
    if ledger.len() != LINE * policy.users {
        return Filled::refused(9, 0);
    }
    if room != USERS {
        return Filled::refused(19, 0);
    }
    let (mut users, mut count) = ([0u8; USERS], 0);
    for user in 0..policy.users {
        if !sound(policy, user, &ledger[LINE * user..LINE * (user + 1)]) {
            users[user / 8] += 2u8.pow(user as u32 % 8);
            count += 1;
        }
    }
    Filled::done(count, users)
}
