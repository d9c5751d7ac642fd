//! The survey: how many sets of its members each exclusion allows, and how often each number answers a script.

use super::image::judge;
use super::policy::Exclusion;
use super::script::output;
use std::collections::BTreeMap;

/// What the survey prints for an image file's bytes (none if it cannot be read) and a script.
pub fn survey(image: Option<&[u8]>, script: &[u8]) -> Vec<u8> {
    let policy = match judge(image.unwrap_or_default()) {
        Err(refused) => return format!("{} {}\n", refused.number, refused.extra).into_bytes(),
        Ok(policy) => policy,
    };
    let mut printed = String::new();
    for exclusion in &policy.exclusions {
        let (kind, size) = (exclusion.kind as usize, exclusion.members.len());
        printed += &format!("{kind} {} {size} {}\n", exclusion.n, allowed(exclusion));
    }
    for (number, count) in counts(&output(image, script)) {
        printed += &format!("{number} {count}\n");
    }
    printed.into_bytes()
}

/// How many sets of an exclusion's members have fewer than its n: taking the members in one by one, so many sets of
/// each size.
pub fn allowed(exclusion: &Exclusion) -> u128 {
    let mut sets = vec![1u128];
    for _ in &exclusion.members {
        let with_it = sets.clone();
        sets.push(0);
        for (size, count) in with_it.into_iter().enumerate() {
            sets[size + 1] += count;
        }
    }
    sets[..exclusion.n].iter().sum()
}

/// The answer numbers of the script program's output, and how often each comes.
fn counts(answers: &[u8]) -> BTreeMap<u64, u64> {
    let text = String::from_utf8_lossy(answers);
    let mut counts = BTreeMap::new();
    for line in text.lines() {
        let number = line.split(' ').nth(1).and_then(|word| word.parse().ok()).expect("an answer has a number");
        *counts.entry(number).or_default() += 1;
    }
    counts
}
