//! What reading an image costs at least: its bytes read once, and its words taken apart with nothing stored; the
//! kit's check beside both. These rows are no match of two ways to do one job, and none counts for the worst ratio.

use crate::images;
use crate::report::Report;
use crate::timing;
use nutrameza_tests::kit::{self, Empty};
use std::hint::black_box;

/// Every byte read once: the sum of the words, as the balance asks for it.
#[inline(never)]
fn summed(image: &[u8]) -> u32 {
    image.as_chunks::<4>().0.iter().fold(0, |sum, word| sum.wrapping_add(u32::from_le_bytes(*word)))
}

/// Where the fields of each kind stand: the lowest bit of a field, and its mask. A field that a kind has not is empty.
const FIELDS: [[(u8, u32); 3]; 16] = {
    let none = (0, 0);
    let mut fields = [[none; 3]; 16];
    fields[1] = [(21, 127), (14, 127), (5, 511)];
    fields[2] = [(22, 63), (16, 63), none];
    fields[3] = [(22, 63), (14, 255), none];
    fields[4] = [(22, 63), (16, 63), none];
    fields[5] = [(26, 3), (19, 127), (12, 127)];
    fields[6] = [(22, 63), none, none];
    fields[7] = [(22, 63), (13, 511), none];
    fields[15] = [(0, 0x0FFF_FFFF), none, none];
    fields
};

/// Every word taken apart by kind and fields, without a branch, and all of it folded into one number.
#[inline(never)]
fn taken_apart(image: &[u8]) -> u32 {
    image.as_chunks::<4>().0.iter().fold(0, |folded: u32, word| {
        let word = u32::from_le_bytes(*word);
        let kind = word >> 28;
        let [first, second, third] = FIELDS[kind as usize].map(|(bit, mask)| word >> (bit & 31) & mask);
        folded.wrapping_add(kind ^ first ^ second ^ third)
    })
}

/// Prints the rows.
pub fn rows(report: &Report) {
    println!();
    println!("the limit of reading: the bytes once, and the words taken apart with nothing stored; the kit's check beside them");
    println!(
        "{:<44} {:>9} {:>9} {:>9} {:>12} {:>12}",
        "limit of reading", "bytes ns", "apart ns", "check ns", "check/bytes", "check/apart"
    );
    for image in images::in_all_orders() {
        let name = format!("limit, {}", image.name);
        if report.wants(&name) {
            row(&name, &image.bytes);
        }
    }
}

fn row(name: &str, image: &[u8]) {
    let mut check = || {
        black_box(kit::check(Empty::Null, black_box(image)));
    };
    let mut sum = || {
        black_box(summed(black_box(image)));
    };
    let mut apart = || {
        black_box(taken_apart(black_box(image)));
    };
    let bytes = timing::beside(&mut check, &mut sum);
    let words = timing::beside(&mut check, &mut apart);
    println!(
        "{name:<44} {:>9.0} {:>9.0} {:>9.0} {:>12.2} {:>12.2}",
        bytes.second, words.second, words.first, bytes.ratio, words.ratio
    );
}
