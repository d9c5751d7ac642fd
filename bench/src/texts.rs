//! The clause texts of the asks in the families of 003's tables, of image A and the longest one: time, ratio and
//! bytes a second. The buffer has room for any text, as a host's has; once it is as long as its text.

use crate::families::{self, Asked};
use crate::plain;
use crate::report::Report;
use nutrameza_tests::kit::{self, Empty};
use nutrameza_tests::solver::line::LINE;
use nutrameza_tests::{ward, words};
use std::hint::black_box;

/// A line with session 0 open and nothing active, now or ever.
const OPENED: [u8; LINE] = {
    let mut line = [0; LINE];
    line[0] = 1;
    line
};

/// Writes the text of an ask, by the kit or in plain Rust.
fn write(asked: &Asked, by_kit: bool, out: &mut [u8]) -> u64 {
    let (image, lower, upper) = (black_box(&asked.image), &asked.lower, &asked.upper);
    if by_kit {
        let wish = kit::Wish { user: 0, session: 0, lower, upper };
        return kit::clauses(Empty::Somewhere, image, &OPENED, &wish, asked.aims, out);
    }
    let wish = plain::Wish { user: 0, session: 0, lower, upper, objectives: asked.aims };
    plain::clauses(image, &OPENED, &wish, out)
}

/// Writes the texts of some asks, one over the other.
fn write_all(asks: &[Asked], by_kit: bool, out: &mut [u8]) {
    for asked in asks {
        black_box(write(asked, by_kit, out));
    }
}

/// Times the texts of some asks into a buffer of this length; both ways write the same bytes.
fn row(name: &str, asks: &[Asked], room: usize, report: &mut Report) {
    if !report.wants(name) {
        return;
    }
    let (mut first, mut second) = (vec![0; room], vec![1; room]);
    let mut bytes = 0;
    for asked in asks {
        let (by_kit, by_plain) = (write(asked, true, &mut first), write(asked, false, &mut second));
        assert_eq!((by_kit % 256, by_kit), (0, by_plain), "{name}");
        let length = (by_kit / 256) as usize;
        assert!(first[..length] == second[..length], "{name}: the texts differ");
        bytes += length;
    }
    let mut kit = || write_all(asks, true, &mut first);
    let mut plain = || write_all(asks, false, &mut second);
    let times = report.beside(name, &mut kit, &mut plain);
    let each = |sum: f64| sum / asks.len() as f64;
    println!(
        "{name:<44} {:>12.0} {:>12.0} {:>7.2} {:>12.0} {:>9.0}",
        each(times.first),
        each(times.second),
        times.ratio,
        each(bytes as f64),
        bytes as f64 * 1e3 / times.first
    );
}

/// Every role carries every permission, none may be activated or allowed, 32 exclusions of all roles with n 64.
fn longest() -> Asked {
    let mut list = vec![words::head(1, 64, 256)];
    list.extend((0..63).map(|role| words::senior(role, role + 1)));
    list.extend((0..256).map(|permission| words::grant(63, permission)));
    let all: Vec<u32> = (0..64).collect();
    (0..32).for_each(|_| list.extend(words::exclusion(0, 64, &all)));
    Asked { image: words::bytes(&words::closed(list)), lower: ward::bound(0), upper: ward::bound(0), aims: (1, 1) }
}

/// Times all texts.
pub fn texts(report: &mut Report) {
    println!();
    println!("clause texts, by 003's tables 3 and 4; a row's time and length are those of the mean text");
    println!("{:<44} {:>12} {:>12} {:>7} {:>12} {:>9}", "asks", "kit ns", "plain ns", "ratio", "bytes", "MB/s");
    let small = Asked { image: ward::image_a(), lower: ward::bound(2), upper: ward::bound(0xf), aims: (1, 1) };
    row("text, image A 1 1", &[small], plain::MOST_BYTES, report);
    for (name, asks) in families::texts() {
        row(&format!("text, {name}"), &asks, plain::MOST_BYTES, report);
    }
    let longest = [longest()];
    let length = write(&longest[0], false, &mut vec![0; plain::MOST_BYTES]) / 256;
    row("text, the longest", &longest, plain::MOST_BYTES, report);
    row("text, the longest, a buffer of its length", &longest, length as usize, report);
}
