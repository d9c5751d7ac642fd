//! The closed grant table in bytes, and tables turned, bit by bit.

use super::filled::Filled;
use super::image::judge;

/// The bytes of a table: 64 rows of 32, or turned 256 rows of 8.
pub const TABLE: usize = 2048;

/// Which way a table is turned.
#[derive(Clone, Copy, Debug, PartialEq, Eq)]
pub enum Way {
    /// From a row for each role to a row for each permission.
    Turn,
    /// Back.
    Unturn,
}

/// The bit of a row, in rows of so many bytes.
pub fn bit(bytes: &[u8], width: usize, row: usize, bit: usize) -> bool {
    bytes[width * row + bit / 8] / 2u8.pow(bit as u32 % 8) % 2 == 1
}

/// Sets a bit of a row that is not set yet.
fn set(bytes: &mut [u8], width: usize, row: usize, bit: usize) {
    bytes[width * row + bit / 8] += 2u8.pow(bit as u32 % 8);
}

/// The table call on an image, for a target of this length.
pub fn table(image: &[u8], room: usize) -> Filled {
    let policy = match judge(image) {
        Ok(policy) => policy,
        Err(refused) => return Filled::as_check(&refused),
    };
    if room != TABLE {
        return Filled::refused(19, 0);
    }
    let mut table = vec![0; TABLE];
    for role in 0..policy.roles {
        for permission in policy.carried_by(role) {
            set(&mut table, 32, role, permission);
        }
    }
    Filled::done(0, table)
}

/// Turns a table one way or the other, for a target of this length.
pub fn turn(way: Way, source: &[u8], room: usize) -> Filled {
    if source.len() != TABLE || room != TABLE {
        return Filled::refused(19, 0);
    }
    let mut target = vec![0; TABLE];
    for role in 0..64 {
        for permission in 0..256 {
            match way {
                Way::Turn if bit(source, 32, role, permission) => set(&mut target, 8, permission, role),
                Way::Unturn if bit(source, 8, permission, role) => set(&mut target, 32, role, permission),
                _ => {}
            }
        }
    }
    Filled::done(0, target)
}
