//! The kit and the solver side by side: cases spread over the cores, answers counted, what differs shrunk and printed.

use crate::gen::order::Moved;
use crate::gen::{damage, Rng};
use crate::kit::{self, Empty};
use crate::solver::calls::{self, Call, Reply};
use crate::solver::filled::Filled;
use crate::solver::image::{judge, Judged, Refused};
use crate::solver::line::LINE;
use crate::solver::loops::{self, CHAIN};
#[cfg(feature = "calls")]
use crate::solver::moves::{self, Move};
#[cfg(feature = "calls")]
use crate::solver::stopped::{self, USERS};
use crate::solver::tidy;
use crate::solver::turned::{self, Way};
use crate::words;
use std::cell::Cell;
use std::collections::BTreeMap;
use std::io::Write;
use std::sync::OnceLock;
use std::time::UNIX_EPOCH;

/// The seed that every run has, where NUTRAMEZA_SEED names no other.
const USUAL: u64 = 20_120_309;

thread_local! {
    /// The seed of the case that this thread is at.
    static CURRENT: Cell<Option<u64>> = const { Cell::new(None) };
}

/// The seed that NUTRAMEZA_SEED names, if it is set.
fn named() -> Option<u64> {
    let text = std::env::var("NUTRAMEZA_SEED").ok()?;
    Some(text.parse().expect("NUTRAMEZA_SEED is a number"))
}

/// The day's seed: how many days there are since 1970. It is the same for the whole run.
fn of_the_day() -> u64 {
    static DAY: OnceLock<u64> = OnceLock::new();
    *DAY.get_or_init(|| UNIX_EPOCH.elapsed().expect("the clock is behind 1970").as_secs() / 86_400)
}

/// The seed of the case that is played, else of the run.
pub fn seed() -> u64 {
    CURRENT.get().or_else(named).unwrap_or(USUAL)
}

/// The seeds of so many cases, each with how many it has: the one that is named, else the usual one and, for an eighth
/// more, the day's. A failure names its seed; NUTRAMEZA_SEED then plays its cases again.
fn seeds(cases: u64) -> Vec<(u64, u64)> {
    match named() {
        Some(seed) => vec![(seed, cases)],
        None => vec![(USUAL, cases), (of_the_day(), cases.div_ceil(8))],
    }
}

/// A case while it is played: where it panics, it says how to play it again.
struct Playing<'a> {
    name: &'a str,
    seed: u64,
    case: u64,
}

impl Drop for Playing<'_> {
    fn drop(&mut self) {
        if std::thread::panicking() {
            say(&format!("{}: case {} of NUTRAMEZA_SEED={} failed", self.name, self.case, self.seed));
        }
    }
}

/// How often each thing was seen.
#[derive(Default)]
pub struct Tally(BTreeMap<String, u64>);

impl Tally {
    pub fn see(&mut self, what: &str) {
        match self.0.get_mut(what) {
            Some(count) => *count += 1,
            None => {
                self.0.insert(what.to_string(), 1);
            }
        }
    }

    pub fn count(&self, what: &str) -> u64 {
        self.0.get(what).copied().unwrap_or(0)
    }

    /// Sees an answer number.
    pub fn see_number(&mut self, number: u64) {
        const NAMES: [&str; 25] = [
            "0", "1", "2", "3", "4", "5", "6", "7", "8", "9", "10", "11", "12", "13", "14", "15", "16", "17", "18", "19", "20",
            "21", "22", "23", "24",
        ];
        self.see(NAMES.get(number as usize).copied().unwrap_or("other"));
    }

    /// Each of these was seen at least so often.
    pub fn expect(&self, least: u64, what: &[&str]) {
        for name in what {
            let count = self.count(name);
            assert!(count >= least, "{name} was seen {count} times, fewer than {least}");
        }
    }

    fn join(&mut self, other: Tally) {
        for (what, count) in other.0 {
            *self.0.entry(what).or_insert(0) += count;
        }
    }
}

/// A line for the reader of the run, shown whether or not the test passes.
pub fn say(text: &str) {
    let _ = writeln!(std::io::stderr(), "{text}");
}

/// Runs the cases of a test on all cores, each with its own sequence, and says what was seen.
pub fn spread(name: &str, cases: u64, case: impl Fn(&mut Rng, &mut Tally) + Sync) -> Tally {
    let seeds = seeds(cases);
    let from = std::time::Instant::now();
    let threads = std::thread::available_parallelism().map_or(1, |cores| cores.get()) as u64;
    let mut whole = Tally::default();
    std::thread::scope(|scope| {
        let (case, seeds) = (&case, &seeds);
        let run = move |thread: u64| {
            let mut tally = Tally::default();
            for (seed, cases) in seeds {
                CURRENT.set(Some(*seed));
                for number in (thread..*cases).step_by(threads as usize) {
                    let playing = Playing { name, seed: *seed, case: number };
                    case(&mut Rng::of_case(*seed, number), &mut tally);
                    drop(playing);
                }
            }
            tally
        };
        let running: Vec<_> = (0..threads).map(|thread| scope.spawn(move || run(thread))).collect();
        for thread in running {
            match thread.join() {
                Ok(tally) => whole.join(tally),
                Err(panic) => std::panic::resume_unwind(panic),
            }
        }
    });
    let seen: Vec<String> = whole.0.iter().map(|(what, count)| format!("{what}: {count}")).collect();
    let seeds: Vec<String> = seeds.iter().map(|(seed, cases)| format!("seed {seed}, {cases} cases")).collect();
    say(&format!("{name}: {}, {:.1} s; {}", seeds.join("; "), from.elapsed().as_secs_f64(), seen.join(", ")));
    whole
}

/// The number that the solver's judgement means.
pub fn judged_number(judged: &Judged) -> u64 {
    match judged {
        Ok(_) => 0,
        Err(refused) => refused.number + 256 * refused.extra as u64,
    }
}

/// Drops parts of a list, large ones first, as long as what is left still fails.
fn drop_parts<T: Clone>(list: &mut Vec<T>, fails: impl Fn(&[T]) -> bool) {
    let mut part = list.len().div_ceil(2);
    while part > 0 {
        let mut from = 0;
        while from < list.len() {
            let mut less = list.clone();
            less.drain(from..(from + part).min(list.len()));
            if fails(&less) {
                *list = less;
            } else {
                from += part;
            }
        }
        part = if part == 1 { 0 } else { part.div_ceil(2) };
    }
}

/// The words of an image by entries: an exclusion with its members is one.
fn entries(words: &[u32]) -> Vec<Vec<u32>> {
    let mut entries: Vec<Vec<u32>> = Vec::new();
    for word in words {
        match entries.last_mut() {
            Some(entry) if word >> 28 == 6 && entry[0] >> 28 == 5 => entry.push(*word),
            _ => entries.push(vec![*word]),
        }
    }
    entries
}

/// Drops entries, then words of an image as long as it still fails, the balance set anew if that fails too.
fn shrink_image(image: &mut Vec<u8>, fails: impl Fn(&[u8]) -> bool) {
    if image.len() % 4 != 0 {
        return drop_parts(image, fails);
    }
    let as_it_falls = |less: &[u32]| words::bytes(less);
    let anew = |less: &[u32]| {
        let mut less = less.to_vec();
        words::rebalance(&mut less);
        words::bytes(&less)
    };
    for balance in [&as_it_falls as &dyn Fn(&[u32]) -> Vec<u8>, &anew] {
        if fails(&balance(&words::from_bytes(image))) {
            let mut list = entries(&words::from_bytes(image));
            drop_parts(&mut list, |less| fails(&balance(&less.concat())));
            let mut list = list.concat();
            drop_parts(&mut list, |less| fails(&balance(less)));
            *image = balance(&list);
        }
    }
}

/// Words as they stand in 01: hex, in a row.
fn image_text(image: &[u8]) -> String {
    let words: Vec<String> = words::from_bytes(image).iter().map(|word| format!("{word:08X}")).collect();
    format!("{} bytes, words {}", image.len(), words.join(" "))
}

/// The check of an image by both; panics with a shrunk image if they differ.
pub fn check(image: &[u8], tally: &mut Tally) -> Judged {
    let differs = |image: &[u8]| kit::check(Empty::Null, image) != judged_number(&judge(image));
    let judged = judge(image);
    tally.see_number(judged_number(&judged) % 256);
    if kit::check(Empty::Null, image) != judged_number(&judged) {
        let mut small = image.to_vec();
        shrink_image(&mut small, differs);
        let (kit, solver) = (kit::check(Empty::Null, &small), judged_number(&judge(&small)));
        panic!("seed {}: check answers {kit}, the solver {solver}, on {}", seed(), image_text(&small));
    }
    judged
}

/// A call that reads bytes and may fill the front of a buffer of this length: what differs from the number and the
/// bytes expected.
fn filled(
    read: &[u8],
    room: usize,
    guard: u8,
    (number, bytes): (u64, Option<&[u8]>),
    call: impl FnOnce(&[u8], &mut [u8]) -> u64,
) -> Result<(), String> {
    let (before, mut left) = (read.to_vec(), filler(room, guard));
    let mut buffer = Guarded::new(&left, guard);
    let returned = call(read, buffer.inner());
    if let Some(bytes) = bytes {
        left[..bytes.len()].copy_from_slice(bytes);
    }
    if returned != number {
        let parts = |number: u64| format!("{} + 256 * {}", number % 256, number / 256);
        return Err(format!("returned {}, the solver {}", parts(returned), parts(number)));
    }
    if let Some(place) = (0..room).find(|place| buffer.inner()[*place] != left[*place]) {
        let (kit, solver) = (buffer.inner()[place], left[place]);
        return Err(format!("after answer {} byte {place} is {kit:02x}, the solver's {solver:02x}", number % 256));
    }
    if !buffer.guards_stand() || before != read {
        return Err(format!("after answer {} bytes outside the buffer changed", number % 256));
    }
    Ok(())
}

/// A call over an image by both; panics with a shrunk image if they differ.
fn over_image<T>(name: &str, image: &[u8], by_both: impl Fn(&[u8]) -> Result<T, String>) -> T {
    by_both(image).unwrap_or_else(|_| {
        let mut small = image.to_vec();
        shrink_image(&mut small, |image| by_both(image).is_err());
        let text = by_both(&small).err().expect("the shrunk image still fails");
        panic!("seed {}: {name}: {text}, on {}", seed(), image_text(&small));
    })
}

/// The loop call by both on a chain buffer of this length; panics with a shrunk image if they differ.
pub fn find_loop(image: &[u8], room: usize, empty: Empty, guard: u8) -> Filled<[u8; CHAIN]> {
    over_image(&format!("the loop call on {room} bytes"), image, |image| {
        let found = loops::find(image, room);
        let expected = (found.returned(), found.bytes.as_ref().map(|bytes| &bytes[..]));
        filled(image, room, guard, expected, |image, chain| kit::find_loop(empty, image, chain))?;
        Ok(found)
    })
}

/// The tidy call by both on a buffer of this length; panics with a shrunk image if they differ.
pub fn tidy(image: &[u8], room: usize, empty: Empty, guard: u8) -> Filled {
    over_image(&format!("the tidy call on {room} bytes"), image, |image| {
        let written = tidy::write(image, room);
        filled(image, room, guard, (written.returned(), written.bytes.as_deref()), |image, out| kit::tidy(empty, image, out))?;
        Ok(written)
    })
}

/// The table call by both on a target of this length; panics with a shrunk image if they differ.
pub fn table(image: &[u8], room: usize, empty: Empty, guard: u8) -> Filled {
    over_image(&format!("the table call on {room} bytes"), image, |image| {
        let table = turned::table(image, room);
        filled(image, room, guard, (table.returned(), table.bytes.as_deref()), |image, out| kit::table(empty, image, out))?;
        Ok(table)
    })
}

/// A table turned one way or the other by both, into a target of this length; panics if they differ.
pub fn turn(way: Way, source: &[u8], room: usize, empty: Empty, guard: u8) -> Filled {
    let table = turned::turn(way, source, room);
    let expected = (table.returned(), table.bytes.as_deref());
    if let Err(text) = filled(source, room, guard, expected, |source, target| kit::turn(empty, way, source, target)) {
        panic!("seed {}: {way:?} of {} bytes into {room}: {text}, on {source:02x?}", seed(), source.len());
    }
    table
}

/// A move by both from an old ledger to a target that holds these bytes: what it did, or what differs.
#[cfg(feature = "calls")]
fn carried(way: Move, image: &[u8], old: &[u8], new: &[u8], empty: Empty, guard: u8) -> Result<Filled, String> {
    let before = image.to_vec();
    let (mut kit_old, mut kit_new) = (Guarded::new(old, guard), Guarded::new(new, !guard));
    let returned = kit::carry(empty, way, image, kit_old.inner(), kit_new.inner());
    let carried = moves::carry(way, &judge(image), old, new.len());
    let target = carried.bytes.as_deref().unwrap_or(new);
    if returned != carried.returned() {
        let (number, extra) = (returned % 256, returned / 256);
        return Err(format!("returned {number} + 256 * {extra}, the solver {} + 256 * {}", carried.number, carried.extra));
    }
    if let Some(place) = (0..new.len()).find(|place| kit_new.inner()[*place] != target[*place]) {
        let (kit, solver) = (kit_new.inner()[place], target[place]);
        return Err(format!(
            "after answer {} byte {place} of the target is {kit:02x}, the solver's {solver:02x}",
            carried.number
        ));
    }
    if kit_old.inner() != old || !kit_old.guards_stand() || !kit_new.guards_stand() || before != image {
        return Err(format!("after answer {} bytes outside the target changed", carried.number));
    }
    Ok(carried)
}

/// A move by both; panics with a shrunk image and ledger if they differ.
#[cfg(feature = "calls")]
pub fn carry(way: Move, image: &[u8], old: &[u8], new: &[u8], empty: Empty, guard: u8) -> Filled {
    carried(way, image, old, new, empty, guard).unwrap_or_else(|_| {
        let (mut small, mut less) = (image.to_vec(), old.to_vec());
        shrink_image(&mut small, |image| carried(way, image, old, new, empty, guard).is_err());
        zero_bytes(&mut less, |less| carried(way, &small, less, new, empty, guard).is_err());
        let text = carried(way, &small, &less, new, empty, guard).expect_err("the shrunk move still fails");
        let lines = nonzero_lines(&less, way.lines().0);
        let (seed, image, from, to) = (seed(), image_text(&small), less.len(), new.len());
        panic!("seed {seed}: {way:?}: {text}\nimage: {image}\nfrom {from} bytes to {to}, the old ledger zero but for\n{lines}");
    })
}

/// The stopped call by both on a buffer of this length: what it told, or what differs.
#[cfg(feature = "calls")]
fn told(image: &[u8], ledger: &[u8], room: usize, empty: Empty, guard: u8) -> Result<Filled<[u8; USERS]>, String> {
    let told = stopped::stopped(&judge(image), ledger, room);
    let mut kept = Guarded::new(ledger, !guard);
    let expected = (told.returned(), told.bytes.as_ref().map(|users| &users[..]));
    filled(image, room, guard, expected, |image, users| kit::stopped(empty, image, kept.inner(), users))?;
    if kept.inner() != ledger || !kept.guards_stand() {
        return Err(format!("after answer {} the ledger changed", told.number));
    }
    Ok(told)
}

/// The stopped call by both; panics with a shrunk image and ledger if they differ.
#[cfg(feature = "calls")]
pub fn stopped(image: &[u8], ledger: &[u8], room: usize, empty: Empty, guard: u8) -> Filled<[u8; USERS]> {
    told(image, ledger, room, empty, guard).unwrap_or_else(|_| {
        let (mut small, mut less) = (image.to_vec(), ledger.to_vec());
        shrink_image(&mut small, |image| told(image, ledger, room, empty, guard).is_err());
        zero_bytes(&mut less, |less| told(&small, less, room, empty, guard).is_err());
        let text = told(&small, &less, room, empty, guard).expect_err("the shrunk call still fails");
        let (seed, image, lines) = (seed(), image_text(&small), nonzero_lines(&less, LINE));
        panic!(
            "seed {seed}: stopped on {room} bytes: {text}\nimage: {image}\nledger of {} bytes, zero but for\n{lines}",
            less.len()
        );
    })
}

/// Sets bytes to zero as long as the whole still fails.
fn zero_bytes(bytes: &mut [u8], fails: impl Fn(&[u8]) -> bool) {
    for place in 0..bytes.len() {
        let byte = std::mem::replace(&mut bytes[place], 0);
        if byte != 0 && !fails(bytes) {
            bytes[place] = byte;
        }
    }
}

/// The lines of a ledger that are not all zero, in hex.
fn nonzero_lines(ledger: &[u8], line: usize) -> String {
    let hex = |line: &[u8]| line.iter().map(|byte| format!("{byte:02x}")).collect::<String>();
    let lines = ledger.chunks(line).enumerate().filter(|(_, line)| line.iter().any(|byte| *byte != 0));
    lines.map(|(user, line)| format!("  line {user}: {}", hex(line))).collect::<Vec<_>>().join("\n")
}

/// Calls one after another under one image, from a first ledger.
#[derive(Clone, Debug)]
pub struct Run {
    pub image: Vec<u8>,
    pub ledger: Vec<u8>,
    pub calls: Vec<Call>,
    pub empty: Empty,
}

/// The bytes kept on each side of a buffer that the kit may write.
const GUARD: usize = 64;

/// A buffer with guard bytes around it.
struct Guarded {
    bytes: Vec<u8>,
    guard: u8,
}

impl Guarded {
    fn new(inner: &[u8], guard: u8) -> Guarded {
        let mut bytes = vec![guard; GUARD];
        bytes.extend(inner);
        bytes.resize(bytes.len() + GUARD, guard);
        Guarded { bytes, guard }
    }

    fn inner(&mut self) -> &mut [u8] {
        let end = self.bytes.len() - GUARD;
        &mut self.bytes[GUARD..end]
    }

    fn guards_stand(&self) -> bool {
        let end = self.bytes.len() - GUARD;
        self.bytes[..GUARD].iter().chain(&self.bytes[end..]).all(|byte| *byte == self.guard)
    }
}

/// What an answer buffer of this length holds before a call: bytes that are not zero.
fn filler(room: usize, guard: u8) -> Vec<u8> {
    (0..room).map(|place| guard.wrapping_mul(31).wrapping_add(place as u8) | 1).collect()
}

/// One call by both on the same ledger: the reply, or what differs. The ledger moves on.
pub fn step(judged: &Judged, image: &[u8], ledger: &mut Vec<u8>, call: &Call, empty: Empty, guard: u8) -> Result<Reply, String> {
    let before = image.to_vec();
    let filler = filler(call.room(), guard);
    let (mut kit_ledger, mut kit_answer) = (Guarded::new(ledger, guard), Guarded::new(&filler, !guard));
    let returned = kit::play(empty, image, kit_ledger.inner(), call, kit_answer.inner());
    let reply = calls::play(judged, ledger, call);
    let mut answer = filler;
    if let Some(filled) = &reply.answer {
        answer[..filled.len()].copy_from_slice(filled);
    }
    if returned != reply.returned() {
        return Err(format!(
            "returned {} + 256 * {}, the solver {} + 256 * {}",
            returned % 256,
            returned / 256,
            reply.number,
            reply.extra
        ));
    }
    if kit_ledger.inner() != ledger.as_slice() {
        let wrong = (0..ledger.len()).find(|place| kit_ledger.inner()[*place] != ledger[*place]);
        return Err(format!("after answer {} ledger byte {wrong:?} differs", reply.number));
    }
    if let Some(wrong) = (0..answer.len()).find(|place| kit_answer.inner()[*place] != answer[*place]) {
        let near = wrong.saturating_sub(40)..(wrong + 40).min(answer.len());
        return Err(format!(
            "after answer {} the answer differs at {wrong}: {:02x?} there, the solver's {:02x?}",
            reply.number,
            &kit_answer.inner()[near.clone()],
            &answer[near]
        ));
    }
    if !kit_ledger.guards_stand() || !kit_answer.guards_stand() || before != image {
        return Err(format!("after answer {} bytes outside ledger and answer changed", reply.number));
    }
    Ok(reply)
}

/// What a call of a run answered, and the line of its user after it (none where there is no such line).
#[derive(Clone, Debug, PartialEq, Eq)]
pub struct Played {
    pub reply: Reply,
    pub line: Vec<u8>,
}

/// Plays a run by both: what each call did, or the place of the first call that differs and how.
fn played(run: &Run) -> Result<Vec<Played>, (usize, String)> {
    let judged = judge(&run.image);
    let mut ledger = run.ledger.clone();
    let mut played = Vec::new();
    for (place, call) in run.calls.iter().enumerate() {
        match step(&judged, &run.image, &mut ledger, call, run.empty, 0x5A ^ place as u8) {
            Ok(reply) => {
                let line = ledger.chunks_exact(LINE).nth(call.user() as usize).unwrap_or_default().to_vec();
                played.push(Played { reply, line });
            }
            Err(text) => return Err((place, text)),
        }
    }
    Ok(played)
}

/// Plays a run by both; panics with a shrunk run if they differ.
pub fn play(run: &Run) -> Vec<Played> {
    match played(run) {
        Ok(played) => played,
        Err((place, _)) => {
            let mut small = run.clone();
            small.calls.truncate(place + 1);
            shrink_run(&mut small);
            let (place, text) = played(&small).expect_err("the shrunk run still fails");
            panic!(
                "seed {}: call {place}: {text}\nimage: {}\nledger of {} bytes, zero but for\n{}\ncalls: {:?}",
                seed(),
                image_text(&small.image),
                small.ledger.len(),
                nonzero_lines(&small.ledger, LINE),
                small.calls
            );
        }
    }
}

/// Drops calls, words and ledger bytes as long as the run still fails.
fn shrink_run(run: &mut Run) {
    let fails = |run: &Run| played(run).is_err();
    let whole = run.clone();
    drop_parts(&mut run.calls, |calls| fails(&Run { calls: calls.to_vec(), ..whole.clone() }));
    let whole = run.clone();
    shrink_image(&mut run.image, |image| fails(&Run { image: image.to_vec(), ..whole.clone() }));
    let whole = run.clone();
    zero_bytes(&mut run.ledger, |ledger| fails(&Run { ledger: ledger.to_vec(), ..whole.clone() }));
}

/// What a call by the kit alone leaves: the number returned, every byte of the ledger and of the answer buffer.
#[derive(Clone, Debug, PartialEq, Eq)]
pub struct Left {
    pub returned: u64,
    pub ledger: Vec<u8>,
    pub answer: Vec<u8>,
}

/// One call by the kit alone.
pub fn leaves(image: &[u8], ledger: &[u8], call: &Call, empty: Empty) -> Left {
    let (mut ledger, mut answer) = (Guarded::new(ledger, 0xC3), Guarded::new(&filler(call.room(), 0xC3), 0x3C));
    let returned = kit::play(empty, image, ledger.inner(), call, answer.inner());
    assert!(ledger.guards_stand() && answer.guards_stand(), "bytes outside ledger and answer changed by {call:?}");
    Left { returned, ledger: ledger.inner().to_vec(), answer: answer.inner().to_vec() }
}

/// The check, the tidy call and a run of calls by the kit alone under two images: what each call leaves, or what
/// differs.
fn left_by(images: &[Vec<u8>; 2], ledger: &[u8], calls: &[Call], empty: Empty) -> Result<Vec<Left>, String> {
    let [one, other] = images;
    let tidy = |image: &Vec<u8>| {
        let mut out = filler(image.len() + 8, 0xC3);
        (kit::tidy(empty, image, &mut out), out)
    };
    if kit::check(empty, one) != kit::check(empty, other) {
        return Err(format!("the checks answer {} and {}", kit::check(empty, one), kit::check(empty, other)));
    }
    if tidy(one) != tidy(other) {
        return Err("the tidy images differ".to_string());
    }
    let mut left: Vec<Left> = Vec::new();
    for (place, call) in calls.iter().enumerate() {
        let before = left.last().map_or(ledger, |left| &left.ledger);
        let [one, other] = [one, other].map(|image| leaves(image, before, call, empty));
        if one != other {
            return Err(format!("call {place} leaves {one:02x?} and {other:02x?}"));
        }
        left.push(one);
    }
    Ok(left)
}

/// The check, the tidy call and a run of calls by the kit alone, alike under an image and under the same entries moved
/// about; panics with shrunk images, calls and ledger if they differ.
pub fn alike(moved: &Moved, ledger: &[u8], calls: &[Call], empty: Empty) -> Vec<Left> {
    left_by(&moved.images(), ledger, calls, empty).unwrap_or_else(|_| {
        let (mut small, mut calls, mut ledger) = (moved.clone(), calls.to_vec(), ledger.to_vec());
        drop_parts(&mut calls, |less| left_by(&moved.images(), &ledger, less, empty).is_err());
        drop_parts(&mut small.entries, |less| {
            let less = Moved { head: moved.head, entries: less.to_vec() };
            left_by(&less.images(), &ledger, &calls, empty).is_err()
        });
        let images = small.images();
        zero_bytes(&mut ledger, |less| left_by(&images, less, &calls, empty).is_err());
        let text = left_by(&images, &ledger, &calls, empty).expect_err("the shrunk run still fails");
        panic!(
            "seed {}: {text}\nimages: {}\n        {}\nledger of {} bytes, zero but for\n{}\ncalls: {calls:?}",
            seed(),
            image_text(&images[0]),
            image_text(&images[1]),
            ledger.len(),
            nonzero_lines(&ledger, LINE),
        );
    })
}

/// Plays a run by both, by itself and with up to two other calls before each of its own: what its own calls answer,
/// which is the same.
pub fn unmoved_by(rng: &mut Rng, run: &Run, mut other: impl FnMut(&mut Rng) -> Call) -> Vec<Played> {
    let mut mixed = Vec::new();
    for call in &run.calls {
        (0..rng.below(3)).for_each(|_| mixed.push((other(rng), false)));
        mixed.push((call.clone(), true));
    }
    let alone = play(run);
    let together = play(&Run { calls: mixed.iter().map(|(call, _)| call.clone()).collect(), ..run.clone() });
    let kept: Vec<Played> = mixed.iter().zip(together).filter(|((_, own), _)| *own).map(|(_, played)| played).collect();
    assert_eq!(alone, kept);
    alone
}

/// Draws damaged images and hands each that a check refuses to the test, with the refusal; every number of a check is
/// among them.
pub fn refused_images(seed: u64, images: usize, mut test: impl FnMut(&mut Rng, &[u8], (u64, u64))) {
    let (mut rng, mut seen) = (Rng::new(seed), Vec::new());
    for _ in 0..images {
        let image = damage::image(&mut rng);
        let Err(Refused { number, extra }) = judge(&image) else { continue };
        test(&mut rng, &image, (number, extra as u64));
        seen.push(number);
    }
    seen.sort();
    seen.dedup();
    assert_eq!(seen, [1, 2, 3, 4, 5, 6, 7, 8, 22, 23]);
}
