//! The same check, open and ask in plain C (c/plain.c), called as a C host calls the kit.

use crate::plain::Wish;

extern "C" {
    fn plain_c_check(image: *const u8, bytes: usize) -> u64;
    fn plain_c_open(image: *const u8, bytes: usize, ledger: *mut u8, room: usize, user: u64) -> u64;
    fn plain_c_ask(
        image: *const u8,
        bytes: usize,
        ledger: *mut u8,
        room: usize,
        user: u64,
        session: u64,
        lower: *const u8,
        lower_bytes: usize,
        upper: *const u8,
        upper_bytes: usize,
        first: u64,
        second: u64,
        answer: *mut u8,
        answer_bytes: usize,
    ) -> u64;
}

pub fn check(image: &[u8]) -> u64 {
    // SAFETY: pointer and length are a slice's, which is only read.
    unsafe { plain_c_check(image.as_ptr(), image.len()) }
}

pub fn open(image: &[u8], ledger: &mut [u8], user: u64) -> u64 {
    // SAFETY: pointers and lengths are slices'; only the ledger is written, within its length.
    unsafe { plain_c_open(image.as_ptr(), image.len(), ledger.as_mut_ptr(), ledger.len(), user) }
}

pub fn ask(image: &[u8], ledger: &mut [u8], wish: &Wish, answer: &mut [u8]) -> u64 {
    // SAFETY: pointers and lengths are slices'; only ledger and answer are written, within their lengths.
    unsafe {
        plain_c_ask(
            image.as_ptr(),
            image.len(),
            ledger.as_mut_ptr(),
            ledger.len(),
            wish.user,
            wish.session,
            wish.lower.as_ptr(),
            wish.lower.len(),
            wish.upper.as_ptr(),
            wish.upper.len(),
            wish.objectives.0,
            wish.objectives.1,
            answer.as_mut_ptr(),
            answer.len(),
        )
    }
}

#[cfg(test)]
mod tests {
    use super::*;
    use nutrameza_tests::compare::spread;
    use nutrameza_tests::gen::damage;
    use nutrameza_tests::kit::{self, Empty};

    #[test]
    fn judges_twenty_thousand_images_as_the_kit_does() {
        let tally = spread("plain C", 20_000, |rng, tally| {
            let image = damage::image(rng);
            let number = check(&image);
            assert_eq!(kit::check(Empty::Null, &image), number, "{image:?}");
            tally.see_number(number % 256);
        });
        tally.expect(200, &["0", "1", "2", "3", "4", "5", "6", "7", "8", "22", "23"]);
    }
}
