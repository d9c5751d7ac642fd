//! Obstacles: on image A and on 4,096 words, in the families of 003's tables, and of an ask that the last of 32
//! exclusions hinders; beside plain Rust, and beside the kit's own short ask with the same bounds.

use crate::families::{self, Asked};
use crate::images;
use crate::plain;
use crate::report::{least, Report};
use crate::timing;
use nutrameza_tests::kit::{self, Empty};
use nutrameza_tests::solver::line::LINE;
use nutrameza_tests::{ward, words};
use std::hint::black_box;

/// An obstacle takes at most so many times as long as a short ask, in every row.
const MOST_SHORT_ASKS: f64 = 8.0;

/// Asks of user 0 in session 0 and the ledger that they are put on.
struct Row {
    name: String,
    asks: Vec<Asked>,
    ledger: Vec<u8>,
}

/// A ledger of so many users in which user 0 has session 0 open.
fn opened(users: usize) -> Vec<u8> {
    let mut ledger = vec![0; LINE * users];
    ledger[0] = 1;
    ledger
}

/// The same of one user whose session 1 holds role 0.
fn beside_another() -> Vec<u8> {
    let mut ledger = opened(1);
    (ledger[0], ledger[8], ledger[32], ledger[40]) = (3, 1, 1, 1);
    ledger
}

/// What stands in the way of an ask, by the kit or in plain Rust.
fn told(asked: &Asked, ledger: &[u8], by_kit: bool, roles: &mut [u8; 16]) -> u64 {
    let (image, lower, upper) = (black_box(&asked.image), &asked.lower, &asked.upper);
    if by_kit {
        let wish = kit::Wish { user: 0, session: 0, lower, upper };
        return kit::obstacle(Empty::Somewhere, image, ledger, &wish, roles);
    }
    let wish = plain::Wish { user: 0, session: 0, lower, upper, objectives: (0, 0) };
    plain::obstacle(image, ledger, &wish, roles)
}

/// The short ask with the same bounds, by the kit, once the user's line is set back.
fn short_ask(asked: &Asked, line: &[u8], ledger: &mut [u8], answer: &mut [u8; 40]) -> u64 {
    ledger[..LINE].copy_from_slice(&line[..LINE]);
    let wish = kit::Wish { user: 0, session: 0, lower: &asked.lower, upper: &asked.upper };
    kit::short_ask(Empty::Somewhere, black_box(&asked.image), ledger, &wish, answer)
}

impl Row {
    /// Both ways tell the same of each ask, and a short ask is told 20 exactly if something is told: how many are
    /// hindered.
    fn agreed(&self) -> usize {
        let hindered = |asked: &Asked| {
            let (mut first, mut second) = ([7; 16], [7; 16]);
            let (by_kit, by_plain) = (told(asked, &self.ledger, true, &mut first), told(asked, &self.ledger, false, &mut second));
            assert_eq!((by_kit, first), (by_plain, second), "{}", self.name);
            let asked = short_ask(asked, &self.ledger, &mut self.ledger.clone(), &mut [0; 40]);
            assert_eq!((asked, asked == 20), (if by_kit % 256 == 0 { 20 } else { 0 }, by_kit % 256 == 0), "{}", self.name);
            asked == 20
        };
        self.asks.iter().filter(|asked| hindered(asked)).count()
    }

    /// Tells of all asks, one after the other.
    fn tell(&self, by_kit: bool) {
        let mut roles = [0; 16];
        for asked in &self.asks {
            black_box(told(asked, &self.ledger, by_kit, &mut roles));
        }
    }

    /// Times and prints the row: how many times as long as a short ask an obstacle takes, the least of some measures
    /// where that is too long.
    fn time(&self, report: &mut Report) -> f64 {
        let (count, mut ledger, mut answer) = (self.asks.len(), self.ledger.clone(), [0; 40]);
        let name = format!("{}, {} of {count} hindered", self.name, self.agreed());
        let mut ask = || {
            for asked in &self.asks {
                black_box(short_ask(asked, &self.ledger, &mut ledger, &mut answer));
            }
        };
        let times = report.beside(&name, &mut || self.tell(true), &mut || self.tell(false));
        let beside = least(MOST_SHORT_ASKS, || timing::beside(&mut || self.tell(true), &mut ask));
        let each = |sum: f64| sum / count as f64;
        println!(
            "{name:<44} {:>12.0} {:>12.0} {:>7.2} {:>14.0} {:>7.2}",
            each(times.first),
            each(times.second),
            times.ratio,
            each(beside.second),
            beside.ratio
        );
        beside.ratio
    }
}

/// A user of 16 roles, each permission by four of them, 32 exclusions of which the last alone is in the way of an ask.
fn last_of_32() -> Asked {
    let mut list = vec![words::head(1, 16, 64)];
    list.extend((0..16).map(|role| words::assignment(0, role)));
    list.extend((0..64).flat_map(|permission| (0..4).map(move |next| words::grant((permission + 4 * next) % 16, permission))));
    let all: Vec<u32> = (0..16).collect();
    (0..31).for_each(|place| list.extend(words::exclusion(place % 3, 6, &all[..6 + place as usize / 3])));
    list.extend(words::exclusion(3, 4, &all));
    Asked { image: words::bytes(&words::closed(list)), lower: ward::bound(0xf), upper: ward::bound(u64::MAX), aims: (1, 1) }
}

/// The rows: the ward's, the last of 32 exclusions, all permissions asked for on 4,096 words, and the families.
fn all() -> Vec<Row> {
    let ward = Asked { image: ward::image_a(), lower: ward::bound(0x12), upper: ward::bound(0x1f), aims: (1, 1) };
    let row = |name: &str, asks, ledger| Row { name: format!("obstacle, {name}"), asks, ledger };
    let mut rows =
        vec![row("13 words", vec![ward], beside_another()), row("the last of 32", vec![last_of_32()], beside_another())];
    for image in images::largest_in_all_orders() {
        let asked = Asked { image: image.bytes, lower: vec![0xff; 32], upper: vec![0xff; 32], aims: (1, 1) };
        rows.push(row(image.name, vec![asked], opened(image.users)));
    }
    for (name, asks) in families::texts() {
        rows.push(row(name.split(' ').next().unwrap_or(&name), asks, opened(1)));
    }
    rows
}

/// Times all obstacles; no row takes longer than it may beside a short ask.
pub fn rows(report: &mut Report) -> bool {
    println!();
    println!("obstacles, beside plain Rust and beside the kit's short ask; a row's time is that of the mean call");
    println!("{:<44} {:>12} {:>12} {:>7} {:>14} {:>7}", "asks", "kit ns", "plain ns", "ratio", "short ask ns", "times");
    let wanted: Vec<Row> = all().into_iter().filter(|row| report.wants(&row.name)).collect();
    let most = wanted.iter().map(|row| row.time(report)).fold(0.0, f64::max);
    if !wanted.is_empty() {
        println!("an obstacle takes at most {most:.2} times as long as a short ask, and {MOST_SHORT_ASKS:.0} times are allowed");
    }
    most <= MOST_SHORT_ASKS
}
