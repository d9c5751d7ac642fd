//! The kit beside the same jobs in plain Rust, and some in plain C, in one process: times as medians, ratios as medians
//! of rounds. Before a job is timed, both are held to the same answers, ledgers and answer bytes. Arguments name rows,
//! by a part of the name; without any, all are timed. The last line is the worst ratio, and the exit status is 1 where
//! it is over the bar or where an obstacle takes too long beside a short ask.

mod families;
mod images;
mod jobs;
mod limit;
mod obstacles;
mod plain;
mod plain_c;
#[cfg(feature = "programs")]
mod program;
mod report;
mod texts;
mod timing;

use report::Report;
use std::process::{Command, ExitCode};

/// The processor's name and how many of it there are, and the day.
fn place_and_day() -> String {
    let about = std::fs::read_to_string("/proc/cpuinfo").unwrap_or_default();
    let name = about.lines().find_map(|line| line.strip_prefix("model name")?.split(": ").nth(1));
    let cores = std::thread::available_parallelism().map_or(1, |cores| cores.get());
    let day = Command::new("date").args(["-u", "+%Y-%m-%d"]).output().map_or(Vec::new(), |output| output.stdout);
    format!("machine: {}, {cores} cores; {}", name.unwrap_or("unknown"), String::from_utf8_lossy(&day).trim())
}

fn main() -> ExitCode {
    let mut report = Report::of_run();
    println!("{}", place_and_day());
    println!(
        "Kit and plain Rust in one process, thread time, median of {} to {} rounds;",
        timing::FEWEST_ROUNDS,
        timing::MOST_ROUNDS
    );
    println!("ratio: median of the rounds' kit / plain. Buffers are not cleared between calls,");
    println!("only the user's line is set back before a call that changes it.");
    println!(
        "A row over {:.2} is measured again, {} times in all at most, and its least ratio counts.",
        report.bar,
        report::MOST_MEASURES
    );
    println!();
    println!("{:<44} {:>12} {:>12} {:>7}", "job", "kit ns", "plain ns", "ratio");
    jobs::all(&mut report);
    jobs::beside_c(&mut report);
    families::asks(&mut report);
    texts::texts(&mut report);
    let in_time = obstacles::rows(&mut report);
    limit::rows(&report);
    #[cfg(feature = "programs")]
    program::lines(&report);
    let (line, held) = report.verdict();
    println!();
    println!("{line}");
    ExitCode::from(u8::from(!(held && in_time)))
}
