//! What stands in the way of an ask: three tests of masks, then the exclusions in the order of the tidy image by
//! halving, each step a search that ends with the first set.

use super::{asked, barred, entered, named, reduced, union, within, Entered, Judge, Permissions, Search, Tables, Wish, TABLES};

/// The roles of a set that carry a permission.
fn carriers(rows: &[Permissions; 64], mut set: u64, permission: usize) -> u64 {
    let mut carriers = 0;
    while set != 0 {
        let role = set.trailing_zeros() as usize;
        set &= set - 1;
        carriers |= (rows[role][permission / 64] >> (permission % 64) & 1) << role;
    }
    carriers
}

/// The lowest permission of a set that no role of another carries.
fn lacking(rows: &[Permissions; 64], lower: Permissions, mut set: u64) -> Option<usize> {
    let mut carried = [0; 4];
    while set != 0 {
        carried = union(carried, rows[set.trailing_zeros() as usize]);
        set &= set - 1;
    }
    let part = (0..4).find(|part| lower[*part] & !carried[*part] != 0)?;
    Some(64 * part + (lower[part] & !carried[part]).trailing_zeros() as usize)
}

impl Search {
    /// Some set of the chosen roles and some free ones carries the lower bound and meets the exclusions that count.
    fn some_set(&self, turned: &[u64; 256], mut free: u64, chosen: u64, carried: Permissions) -> bool {
        let Some(part) = (0..4).find(|part| self.lower[*part] & !carried[*part] != 0) else { return true };
        let wanted = (self.lower[part] & !carried[part]).trailing_zeros() as usize;
        let mut tries = turned[64 * part + wanted] & free;
        while tries != 0 {
            let role = tries.trailing_zeros() as usize;
            tries &= tries - 1;
            free &= !(1 << role);
            let with = chosen | 1 << role;
            if self.met(with) && self.some_set(turned, free, with, union(carried, self.rows[role])) {
                return true;
            }
        }
        false
    }
}

/// What is told: kind, what it is about, two sets.
type Told = (u64, u64, u64, u64);

/// The lowest permission that the first of three sets of roles lacks which lacks one, each within the one before it.
/// Looked for only where the last of them does.
#[cold]
fn lacked(tables: &Tables, judge: &Judge, rows: &mut [Permissions; 64], lower: Permissions, sets: [u64; 3]) -> Option<Told> {
    let [own, usable, free] = sets;
    if let Some(permission) = lacking(rows, lower, own) {
        (0..judge.roles as usize).for_each(|role| rows[role] = tables.row(role));
        return Some((1, permission as u64, carriers(rows, u64::MAX, permission), 0));
    }
    if let Some(permission) = lacking(rows, lower, usable) {
        return Some((2, permission as u64, carriers(rows, own, permission), 0));
    }
    lacking(rows, lower, free).map(|permission| (3, permission as u64, carriers(rows, usable, permission), 0))
}

/// What stands in the way of an ask that no other test refuses.
fn told(
    tables: &mut Tables,
    judge: &Judge,
    entered: &Entered,
    barred: u64,
    wish: &Wish,
    bounds: [Permissions; 2],
) -> Option<Told> {
    let [lower, upper] = bounds;
    let mut search =
        Search { rows: [[0; 4]; 64], lower, reduced: [(0, 0); 32], count: entered.exclusions, objectives: (0, 0), best: None };
    let (mut left, mut usable) = (entered.own, 0);
    while left != 0 {
        let role = left.trailing_zeros() as usize;
        left &= left - 1;
        search.rows[role] = tables.row(role);
        usable |= u64::from(within(search.rows[role], upper)) << role;
    }
    let free = usable & !barred;
    if lacking(&search.rows, lower, free).is_some() {
        return lacked(tables, judge, &mut search.rows, lower, [entered.own, usable, free]);
    }
    let session = wish.session as usize;
    let turned = search.turned(free);
    for place in 0..search.count {
        search.reduced[place] = reduced(&tables.exclusions[place], &entered.line, session);
    }
    if search.some_set(&turned, free, 0, [0; 4]) {
        return None;
    }
    let mut count = entered.exclusions;
    if count > 1 {
        count = tables.sort_exclusions(count);
        for place in 0..count {
            search.reduced[place] = reduced(&tables.exclusions[place], &entered.line, session);
        }
    }
    let (mut left, mut none) = (0, count);
    while none - left > 1 {
        search.count = left.midpoint(none);
        let some = search.some_set(&turned, free, 0, [0; 4]);
        (left, none) = if some { (search.count, none) } else { (left, search.count) };
    }
    let exclusion = tables.exclusions[none - 1];
    let counted = exclusion.members & !search.reduced[none - 1].0;
    Some((4, u64::from(exclusion.kind + 4 * exclusion.n), counted, exclusion.members))
}

/// Obstacle.
#[inline(never)]
pub fn obstacle(image: &[u8], ledger: &[u8], wish: &Wish, roles: &mut [u8]) -> u64 {
    let mut tables = TABLES;
    obstructed(image, ledger, wish, roles, &mut tables).unwrap_or_else(|number| number)
}

#[inline(always)]
fn obstructed(image: &[u8], ledger: &[u8], wish: &Wish, roles: &mut [u8], tables: &mut Tables) -> Result<u64, u64> {
    let judge = named(image, ledger, wish.user, tables)?;
    let barred = if tables.limited == 0 { 0 } else { barred(&judge, ledger, wish, tables)? };
    let entered = entered(&judge, ledger, wish.user, tables)?;
    let (lower, upper) = asked(&entered, wish)?;
    if roles.len() != 16 {
        return Err(19);
    }
    let (kind, about, first, second) = told(tables, &judge, &entered, barred, wish, [lower, upper]).ok_or(20u64)?;
    roles[..8].copy_from_slice(&first.to_le_bytes());
    roles[8..].copy_from_slice(&second.to_le_bytes());
    Ok(256 * (kind + 8 * about))
}

#[cfg(test)]
mod tests {
    use super::*;
    use nutrameza_tests::compare::spread;
    use nutrameza_tests::gen::{call, ledger, policy};
    use nutrameza_tests::kit::{self, Empty};
    use nutrameza_tests::solver::calls::Call;
    use nutrameza_tests::solver::image::judge;
    use nutrameza_tests::words;

    #[test]
    fn tells_sixty_thousand_times_what_the_kit_does() {
        let tally = spread("plain obstacles", 10_000, |rng, tally| {
            let image = words::bytes(&policy::any(rng).words());
            let policy = judge(&image).expect("a policy in good order is accepted");
            let ledger = ledger::ledger(rng, &policy, 20);
            for _ in 0..6 {
                let call = call::obstacle(rng, &policy, &ledger);
                let Call::Obstacle { user, session, lower, upper, room } = &call else { panic!("{call:?} is no obstacle") };
                let (mut first, mut second) = (vec![7; *room], vec![7; *room]);
                let wish = kit::Wish { user: *user, session: *session, lower, upper };
                let by_kit = kit::obstacle(Empty::Null, &image, &ledger, &wish, &mut first);
                let wish = Wish { user: *user, session: *session, lower, upper, objectives: (0, 0) };
                assert_eq!((by_kit, first), (obstacle(&image, &ledger, &wish, &mut second), second), "{call:?} on {image:?}");
                tally.see_number(by_kit % 256);
                if by_kit % 256 == 0 {
                    tally.see(["", "own", "upper", "limit", "exclusion"][(by_kit / 256 % 8) as usize]);
                }
            }
        });
        tally.expect(100, &["0", "20", "10", "11", "12", "13", "15", "16", "17", "19", "own", "upper", "limit", "exclusion"]);
    }
}
