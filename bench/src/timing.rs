//! Times of two ways to do a job, round by round side by side, in the thread's own processor time.

use std::hint::black_box;

/// The most and the fewest rounds of a job; each way runs once in each round.
pub const MOST_ROUNDS: usize = 201;
pub const FEWEST_ROUNDS: usize = 11;

/// Nanoseconds of a round at least and of all rounds at most, about: short rounds, so that what slows the machine
/// slows both.
const ROUND: f64 = 2e5;
const ALL_ROUNDS: f64 = 2e8;

/// The places of the stack that rounds are run at in turn, over a page. A job of some tens of nanoseconds is up to a
/// quarter slower where its tables lie badly in memory, and where a process's stack lies is chance.
const PLACES: usize = 16;

#[repr(C)]
struct Timespec {
    seconds: i64,
    nanoseconds: i64,
}

extern "C" {
    fn clock_gettime(clock: i32, time: *mut Timespec) -> i32;
}

/// The processor time that this thread has had, in nanoseconds: what other processes take does not count.
fn now() -> f64 {
    const CLOCK_THREAD_CPUTIME_ID: i32 = 3;
    let mut time = Timespec { seconds: 0, nanoseconds: 0 };
    // SAFETY: the clock exists on Linux and `time` has its layout there.
    let status = unsafe { clock_gettime(CLOCK_THREAD_CPUTIME_ID, &mut time) };
    assert_eq!(status, 0, "the thread has a clock");
    time.seconds as f64 * 1e9 + time.nanoseconds as f64
}

/// The middle of a list.
pub fn median(mut list: Vec<f64>) -> f64 {
    list.sort_by(f64::total_cmp);
    list[list.len() / 2]
}

/// One round: the time of a single job out of `count`.
fn round(way: &mut dyn FnMut(), count: u64) -> f64 {
    let from = now();
    for _ in 0..count {
        way();
    }
    (now() - from) / count as f64
}

/// One round, so many frames further down the stack.
#[inline(never)]
fn round_at(place: usize, way: &mut dyn FnMut(), count: u64) -> f64 {
    if place == 0 {
        return round(way, count);
    }
    let frame = [0u64; 29];
    black_box(&frame);
    let time = round_at(place - 1, way, count);
    black_box(&frame);
    time
}

/// How many jobs a round holds.
fn jobs_in_a_round(way: &mut dyn FnMut()) -> u64 {
    let once = round(way, 1).max(1.0);
    let often = round(way, (ROUND / 4.0 / once).ceil() as u64).max(1.0);
    (ROUND / often).ceil() as u64
}

/// The median times of two ways, and the median ratio of the first to the second.
pub struct Times {
    pub first: f64,
    pub second: f64,
    pub ratio: f64,
}

/// Measures two ways.
pub fn beside(first: &mut dyn FnMut(), second: &mut dyn FnMut()) -> Times {
    let counts = [jobs_in_a_round(first), jobs_in_a_round(second)];
    let once = round(first, counts[0]) * counts[0] as f64 + round(second, counts[1]) * counts[1] as f64;
    let rounds = ((ALL_ROUNDS / once) as usize).clamp(FEWEST_ROUNDS, MOST_ROUNDS);
    let (mut firsts, mut seconds) = (Vec::new(), Vec::new());
    for number in 0..rounds {
        firsts.push(round_at(number % PLACES, first, counts[0]));
        seconds.push(round_at(number % PLACES, second, counts[1]));
    }
    let ratios = firsts.iter().zip(&seconds).map(|(first, second)| first / second).collect();
    Times { first: median(firsts), second: median(seconds), ratio: median(ratios) }
}

/// The median time of one way over few rounds.
pub fn alone(way: &mut dyn FnMut()) -> f64 {
    let count = jobs_in_a_round(way);
    median((0..5).map(|_| round(way, count)).collect())
}
