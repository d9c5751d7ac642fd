//! The programs' speed: short lines on a small image.

use crate::report::Report;
use nutrameza_tests::{program, ward};
use std::path::Path;
use std::time::Instant;

/// Times each program on a million and a half short lines, start and pipes among it.
pub fn lines(report: &Report) {
    if !report.wants("programs") {
        return;
    }
    let folder = std::env::temp_dir().join(format!("nutrameza_bench-{}", std::process::id()));
    std::fs::create_dir_all(&folder).expect("a folder is made");
    std::fs::write(folder.join("policy.img"), ward::image_a()).expect("the image is written");
    println!();
    timed("nutrameza_script", &program::path(), &folder, b"\n1500000 0 0 0 0\n");
    timed("nutrameza_survey", &program::survey_path(), &folder, b"1 2 2 3\n0 1500000\n");
    std::fs::remove_dir_all(&folder).expect("the folder is removed");
}

/// The best of three runs of a program, whose output ends as given.
fn timed(name: &str, program: &Path, folder: &Path, end: &[u8]) {
    let script = b"open 0\nshow 0 0\nclose 0 0\n".repeat(500_000);
    let mut best = f64::INFINITY;
    for _ in 0..3 {
        let from = Instant::now();
        let ending = program::ending(program::start(program::command_of(program, folder)), &script);
        best = best.min(from.elapsed().as_secs_f64());
        assert!(ending.printed.as_bytes().ends_with(end));
    }
    println!("{name}, 1,500,000 short lines on 13 words: {:.2} s, {:.2} million lines a second", best, 1.5 / best);
}
