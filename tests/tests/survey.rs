//! The program nutrameza_survey: the ward's figures, 64 members with every n, repeated exclusions, empty and
//! unreadable scripts, images that are refused or can't be read, input that fails or comes in chunks of any size,
//! millions of lines, golden files, and generated policies and scripts beside the solver.

use nutrameza_tests::compare::{seed, spread};
use nutrameza_tests::gen::{damage, policy, script, Rng};
use nutrameza_tests::program::{command_of, ending, fresh, golden, preloaded, run_of_on_file, shell_of, start, survey_path};
use nutrameza_tests::solver::image::judge;
use nutrameza_tests::solver::policy::{Exclusion, Kind, Roles};
use nutrameza_tests::solver::survey::{allowed, survey};
use nutrameza_tests::{ward, words};
use std::fs::{File, OpenOptions};
use std::io::Write;
use std::path::PathBuf;

/// A fresh folder of this test run, with an image unless there is none.
fn folder(image: Option<&[u8]>) -> PathBuf {
    fresh(env!("CARGO_TARGET_TMPDIR"), image)
}

/// What the survey prints for an image (none: no file) and a script.
fn run(image: Option<&[u8]>, script: &[u8]) -> Vec<u8> {
    let folder = folder(image);
    let child = start(command_of(&survey_path(), &folder));
    let ending = ending(child, script);
    std::fs::remove_dir_all(&folder).expect("the folder is removed");
    assert_eq!((&*ending.said, ending.status.code()), ("", Some(0)));
    ending.printed.into_bytes()
}

/// The same by text, held against the solver too.
fn text(image: Option<&[u8]>, script: &[u8]) -> String {
    let printed = run(image, script);
    assert_eq!(String::from_utf8_lossy(&printed), String::from_utf8_lossy(&survey(image, script)));
    String::from_utf8(printed).expect("the program prints text")
}

/// An image of 64 roles with these entries.
fn image_of(entries: &[Vec<u32>]) -> Vec<u8> {
    let mut all = vec![words::head(1, 64, 1)];
    all.extend(entries.iter().flatten());
    words::bytes(&words::closed(all))
}

#[test]
fn prints_the_papers_figures_and_the_counts_of_the_papers_script() {
    let script = b"open 0\nask 0 0 3 1f 1 0\nopen 0\nask 0 1 12 1f 1 0\nclose 0 0\nask 0 1 12 1f 1 0\n";
    assert_eq!(text(Some(&ward::image_a()), b""), "1 2 2 3\n");
    assert_eq!(text(Some(&ward::image_a()), script), "1 2 2 3\n0 5\n20 1\n");
    assert_eq!(text(Some(&ward::image_a()), &script[..script.len() - 1]), "1 2 2 3\n0 5\n20 1\n");
}

/// "m choose k" by the factors from the highest down.
fn choose(m: u128, k: u128) -> u128 {
    (0..k).fold(1, |product, i| product * (m - i) / (i + 1))
}

#[test]
fn counts_64_members_with_every_n() {
    let all: Vec<u32> = (0..64).collect();
    for several in [2..=33, 34..=64] {
        let entries: Vec<Vec<u32>> = several.clone().map(|n| words::exclusion(n % 4, n, &all)).collect();
        let line = |n: u32| format!("{} {n} 64 {}\n", n % 4, (0..u128::from(n)).map(|k| choose(64, k)).sum::<u128>());
        assert_eq!(text(Some(&image_of(&entries)), b""), several.map(line).collect::<String>());
    }
    let ends = text(Some(&image_of(&[words::exclusion(0, 64, &all), words::exclusion(3, 2, &all)])), b"");
    assert_eq!(ends, "0 64 64 18446744073709551615\n3 2 64 65\n");
}

#[test]
fn counts_every_size_and_n_as_listing_the_sets_does() {
    for size in 2..=12usize {
        for n in 2..=size {
            let members: Roles = (0..size).collect();
            let listed = (0u32..1 << size).filter(|set| (set.count_ones() as usize) < n).count() as u128;
            assert_eq!(allowed(&Exclusion { kind: Kind::SessionActive, n, members }), listed);
            let roles: Vec<u32> = (0..size as u32).map(|role| 5 * role).collect();
            let printed = text(Some(&image_of(&[words::exclusion(1, n as u32, &roles)])), b"");
            assert_eq!(printed, format!("1 {n} {size} {listed}\n"));
        }
    }
}

#[test]
fn a_repeated_exclusion_has_its_line_again_in_image_order() {
    let (pair, five) = (words::exclusion(2, 2, &[7, 3]), words::exclusion(0, 3, &[1, 2, 3, 4, 5]));
    let entries = [pair.clone(), five.clone(), pair.clone(), vec![words::senior(1, 2)], five];
    assert_eq!(text(Some(&image_of(&entries)), b""), "2 2 2 3\n0 3 5 16\n2 2 2 3\n0 3 5 16\n");
    assert_eq!(text(Some(&image_of(&vec![pair; 32])), b"").lines().count(), 32);
    assert_eq!(text(Some(&image_of(&[])), b"open 0\n"), "0 1\n");
    assert_eq!(text(Some(&image_of(&[])), b""), "");
}

#[test]
fn numbers_ascend_and_unreadable_lines_are_counted_under_21() {
    let image = ward::image_a();
    assert_eq!(text(Some(&image), b"\n\nopen 1\nclose 0 8\nopen 0\nopen"), "1 2 2 3\n0 1\n10 1\n12 1\n21 3\n");
    for line in script::UNREADABLE {
        assert_eq!(text(Some(&image), &[b"open 0\n", line, b"\nopen 0\n"].concat()), "1 2 2 3\n0 2\n21 1\n", "{line:?}");
    }
}

#[test]
fn a_refused_image_has_its_number_and_extra_alone() {
    let mut unbalanced = ward::image_a();
    unbalanced[48] ^= 1;
    assert_eq!(text(Some(&unbalanced), b"open 0\nopen\n"), "8 12\n");
    let looped = words::closed(vec![words::head(1, 3, 1), words::senior(1, 2), words::senior(2, 1)]);
    assert_eq!(text(Some(&words::bytes(&looped)), b"open 0\n"), "22 1\n");
    for image in [None, Some(&[][..]), Some(&[0; 16385][..]), Some(&[0; 16388][..]), Some(&ward::image_a()[..51])] {
        assert_eq!(text(image, b"open 0\n"), "1 0\n");
    }
}

#[test]
fn a_refused_images_script_is_not_read() {
    let folder = folder(None);
    let closed = ending(start(shell_of(&survey_path(), &folder, "", "<&-")), b"");
    assert_eq!((&*closed.printed, &*closed.said, closed.status.code()), ("1 0\n", "", Some(0)));
    let long = ending(start(command_of(&survey_path(), &folder)), &b"open 0\n".repeat(1_000_000));
    assert_eq!((&*long.printed, &*long.said, long.status.code()), ("1 0\n", "", Some(0)));
    assert!(!long.took_all, "the script is left in the pipe");
    std::fs::remove_dir_all(&folder).expect("the folder is removed");
}

#[test]
fn an_image_that_is_a_folder_or_whose_reading_fails_counts_as_empty() {
    let (empty, ward) = (folder(None), folder(Some(&ward::image_a())));
    std::fs::create_dir(empty.join("policy.img")).expect("a folder is made");
    let failing = preloaded(command_of(&survey_path(), &ward), &ward, "failing_read");
    for command in [command_of(&survey_path(), &empty), failing] {
        let ending = ending(start(command), b"");
        assert_eq!((&*ending.printed, &*ending.said, ending.status.code()), ("1 0\n", "", Some(0)));
    }
    for folder in [empty, ward] {
        std::fs::remove_dir_all(&folder).expect("the folder is removed");
    }
}

#[test]
fn an_image_of_4096_words_is_surveyed_whole() {
    assert_eq!(text(Some(&ward::image_a_filled()), b"open 0\n"), "1 2 2 3\n0 1\n");
}

#[test]
fn prints_nothing_where_the_script_cannot_be_read() {
    let folder = folder(Some(&ward::image_a()));
    let mut command = command_of(&survey_path(), &folder);
    command.stdin(File::open(&folder).expect("the folder is opened"));
    let said = "nutrameza_survey: standard input can't be read: ";
    let a_folder = ending(start(command), b"");
    assert_eq!((&*a_folder.printed, &*a_folder.said), ("", &*format!("{said}Is a directory\n")));
    let closed = ending(start(shell_of(&survey_path(), &folder, "", "<&-")), b"");
    assert_eq!((&*closed.printed, &*closed.said), ("", &*format!("{said}Bad file descriptor\n")));
    let mut failing = preloaded(command_of(&survey_path(), &folder), &folder, "failing_read");
    failing.env("FAILING_INPUT", "1");
    let midway = ending(start(failing), b"open 0\nopen 0\n");
    assert_eq!((&*midway.printed, &*midway.said), ("", &*format!("{said}Input/output error\n")));
    std::fs::remove_dir_all(&folder).expect("the folder is removed");
}

#[test]
fn says_that_the_survey_cannot_be_written() {
    for image in [Some(ward::image_a()), None] {
        let folder = folder(image.as_deref());
        let mut command = command_of(&survey_path(), &folder);
        command.stdout(OpenOptions::new().write(true).open("/dev/full").expect("/dev/full is there"));
        let full = ending(start(command), b"open 0\n");
        assert_eq!(full.said, "nutrameza_survey: standard output can't be written: No space left on device\n");
        std::fs::remove_dir_all(&folder).expect("the folder is removed");
    }
}

#[test]
fn a_line_across_two_chunks_is_one_line() {
    const CHUNK: usize = 65_536;
    let (image, folder) = (ward::image_a(), folder(Some(&ward::image_a())));
    let file = folder.join("script");
    for before in 0..=12 {
        let mut script = b"open 9\n".repeat((CHUNK - 40) / 7);
        script.extend(vec![b'x'; CHUNK - 1 - before - script.len()]);
        script.extend(b"\nopen 0\nclose 0 0");
        std::fs::write(&file, &script).expect("the script is written");
        assert_eq!(run_of_on_file(&survey_path(), &folder, &file), survey(Some(&image), &script), "{before} before the end");
    }
    std::fs::remove_dir_all(&folder).expect("the folder is removed");
}

#[test]
fn chunks_of_any_size_are_counted_alike() {
    let (image, folder) = (ward::image_a(), folder(Some(&ward::image_a())));
    let mut rng = Rng::new(seed());
    let policy = judge(&image).expect("the ward's image is accepted");
    for most in [1, 2, 3, 5, 64, 173, 174, 175, 400, 5_000, 65_535, 65_536, 100_000] {
        let mut script = script::script(&mut rng, &policy, 300);
        script.extend([&b"\n"[..], &vec![b'7'; 2_000], b"\nopen 0\nshow 0 0"].concat());
        let mut command = preloaded(command_of(&survey_path(), &folder), &folder, "short_read");
        command.env("SHORT_READ", most.to_string());
        let ending = ending(start(command), &script);
        assert_eq!(ending.printed.into_bytes(), survey(Some(&image), &script), "at most {most} at a time");
    }
    std::fs::remove_dir_all(&folder).expect("the folder is removed");
}

#[test]
fn a_line_of_megabytes_is_one_unreadable_line() {
    let long = [b"open 0\n", &b"ask 0 0 ".repeat(500_000)[..], b"\n", &b"7".repeat(3_000_000)[..], b"\nopen 0"].concat();
    assert_eq!(text(Some(&ward::image_a()), &long), "1 2 2 3\n0 2\n21 2\n");
}

/// The most memory that a process has held so far, in kilobytes.
fn most_memory(process: u32) -> u64 {
    let status = std::fs::read_to_string(format!("/proc/{process}/status")).expect("the process runs");
    let line = status.lines().find(|line| line.starts_with("VmHWM:")).expect("Linux says how much");
    line.split_whitespace().nth(1).and_then(|word| word.parse().ok()).expect("a number")
}

#[test]
fn counts_millions_of_lines_in_little_memory() {
    let folder = folder(Some(&ward::image_a()));
    let mut child = start(command_of(&survey_path(), &folder));
    let mut input = child.stdin.take().expect("the program reads");
    let part = b"open 0\nclose 0 0\n\nask 0 0 3 1f\n".repeat(10_000);
    for _ in 0..100 {
        input.write_all(&part).expect("the program takes the script");
    }
    assert!(most_memory(child.id()) < 16_384, "the survey keeps no line");
    drop(input);
    let output = child.wait_with_output().expect("the program ends");
    assert_eq!(String::from_utf8_lossy(&output.stdout), "1 2 2 3\n0 2000000\n13 1000000\n21 1000000\n");
    std::fs::remove_dir_all(&folder).expect("the folder is removed");
}

#[test]
fn prints_what_the_golden_files_say() {
    for case in golden() {
        let (figures, name) = (case.says("survey"), case.folder.display());
        assert_eq!(text(case.image.as_deref(), &case.script), figures, "{name}");
        let on_file = run_of_on_file(&survey_path(), &case.folder, &case.folder.join("script"));
        assert_eq!(on_file, figures.as_bytes(), "{name}");
    }
}

/// The lines of a survey by their figures: those of the exclusions, and the numbers with their counts.
fn figures(printed: &str) -> (Vec<Vec<u64>>, Vec<Vec<u64>>) {
    let figures = |line: &str| line.split(' ').map(|word| word.parse().expect("a figure")).collect::<Vec<u64>>();
    printed.lines().map(figures).partition(|line| line.len() == 4)
}

#[test]
fn surveys_generated_policies_and_scripts_as_the_solver_does() {
    let tally = spread("surveys", 400, |rng: &mut Rng, tally| {
        let draft = if rng.one_in(4) { policy::crowded(rng, 32) } else { policy::any(rng) };
        let (image, policy) = draft.built();
        let length = rng.from_to(0, 60) as usize;
        let script = script::script(rng, &policy, length);
        let (exclusions, counts) = figures(&text(Some(&image), &script));
        assert_eq!(exclusions.len(), policy.exclusions.len());
        assert!(counts.is_sorted_by(|one, next| one[0] < next[0]), "{counts:?} ascend");
        let lines = script.split_inclusive(|byte| *byte == b'\n').count() as u64;
        assert_eq!(counts.iter().map(|line| line[1]).sum::<u64>(), lines, "the counts add up to the lines");
        for line in exclusions {
            tally.see(&format!("exclusion of {}", line[0]));
        }
        for line in counts {
            tally.see_number(line[0]);
        }
        let repeats = (1..policy.exclusions.len()).any(|place| policy.exclusions[..place].contains(&policy.exclusions[place]));
        tally.see(if repeats { "a repeated exclusion" } else { "none repeated" });
    });
    tally.expect(
        20,
        &[
            "0",
            "10",
            "12",
            "13",
            "14",
            "16",
            "17",
            "20",
            "21",
            "exclusion of 0",
            "exclusion of 1",
            "exclusion of 2",
            "exclusion of 3",
        ],
    );
    tally.expect(10, &["a repeated exclusion", "none repeated"]);
}

#[test]
fn says_of_damaged_images_what_the_solver_says() {
    let tally = spread("damaged surveys", 300, |rng: &mut Rng, tally| {
        let image = damage::image(rng);
        let printed = text(Some(&image), b"open 0\n\n");
        tally.see(if judge(&image).is_err() { "refused" } else { "accepted" });
        assert!(judge(&image).is_ok() || printed.lines().count() == 1, "{printed}");
    });
    tally.expect(50, &["refused"]);
}
