//! The program nutrameza_script: 01's script, every kind of unreadable line, images that cannot be read, lines across
//! the chunks in which it reads, input and output that fail, golden files, and generated scripts beside the solver.

use nutrameza_tests::compare::spread;
use nutrameza_tests::gen::{damage, policy, script, Rng};
use nutrameza_tests::program::{self, ending, fresh, golden, run_in, run_on_file, start, start_in, Ending};
use nutrameza_tests::solver::script::output;
use nutrameza_tests::{ward, words};
use std::fs::{File, OpenOptions, Permissions};
use std::io::{BufRead, BufReader, Write};
use std::os::unix::fs::PermissionsExt;
use std::os::unix::process::CommandExt;
use std::path::{Path, PathBuf};
use std::process::Command;

/// A fresh folder of this test run.
fn folder() -> PathBuf {
    fresh(env!("CARGO_TARGET_TMPDIR"), None)
}

/// What the program prints for an image (none: no file) and a script.
fn run(image: Option<&[u8]>, script: &[u8]) -> Vec<u8> {
    let folder = fresh(env!("CARGO_TARGET_TMPDIR"), image);
    let printed = run_in(&folder, script);
    std::fs::remove_dir_all(&folder).expect("the folder is removed");
    printed
}

/// The same by text, held against the solver too.
fn text(image: Option<&[u8]>, script: &[u8]) -> String {
    let printed = run(image, script);
    assert_eq!(String::from_utf8_lossy(&printed), String::from_utf8_lossy(&output(image, script)));
    String::from_utf8(printed).expect("the program prints text")
}

#[test]
fn prints_the_papers_answers_to_the_papers_script() {
    let script = b"open 0\nask 0 0 3 1f 1 0\nopen 0\nask 0 1 12 1f 1 0\nclose 0 0\nask 0 1 12 1f 1 0\n";
    let expected = "1 0 0 0 0\n2 0 0 1 f\n3 0 1 0 0\n4 20 0 0 0\n5 0 0 0 0\n6 0 0 2 12\n";
    assert_eq!(text(Some(&ward::image_a()), script), expected);
    assert_eq!(text(Some(&ward::image_a()), &script[..script.len() - 1]), expected);
}

#[test]
fn prints_nothing_for_nothing_and_a_line_for_an_empty_line() {
    assert_eq!(text(Some(&ward::image_a()), b""), "");
    assert_eq!(text(Some(&ward::image_a()), b"\n"), "1 21 0 0 0\n");
    assert_eq!(text(Some(&ward::image_a()), b"open 0\n\nopen 0"), "1 0 0 0 0\n2 21 0 0 0\n3 0 1 0 0\n");
}

#[test]
fn answers_21_to_every_unreadable_line_and_goes_on() {
    for line in script::UNREADABLE {
        let script = [b"open 0\n", line, b"\nopen 0\n"].concat();
        assert_eq!(text(Some(&ward::image_a()), &script), "1 0 0 0 0\n2 21 0 0 0\n3 0 1 0 0\n", "{line:?}");
    }
}

#[test]
fn reads_decimals_of_nine_digits_and_hex_of_sixty_four_of_either_size() {
    let (most, one_more) = (format!("{:064x}", 0x1f), format!("{:065x}", 0x1f));
    let asked = |upper: &str| text(Some(&ward::image_a()), format!("open 000000000\nask 0 0 3 {upper}\n").as_bytes());
    assert_eq!(asked(&most), "1 0 0 0 0\n2 0 0 1 f\n");
    assert_eq!(asked("1F"), "1 0 0 0 0\n2 0 0 1 f\n");
    assert_eq!(asked(&one_more), "1 0 0 0 0\n2 21 0 0 0\n");
    assert_eq!(asked(&"f".repeat(64)), "1 0 0 0 0\n2 16 0 0 0\n");
    assert_eq!(asked(&"F".repeat(65)), "1 0 0 0 0\n2 21 0 0 0\n");
    assert_eq!(text(Some(&ward::image_a()), format!("ask 0 0 {one_more} 1f\n").as_bytes()), "1 21 0 0 0\n");
    assert_eq!(text(Some(&ward::image_a()), b"open 1234567890\nask 0 0 3 1f 0 0000000000\n"), "1 21 0 0 0\n2 21 0 0 0\n");
    assert_eq!(text(Some(&ward::image_a()), b"open 999999999\nclose 0 999999999\n"), "1 10 0 0 0\n2 12 0 0 0\n");
}

#[test]
fn a_refused_image_answers_each_readable_line() {
    let mut unbalanced = ward::image_a();
    unbalanced[48] ^= 1;
    assert_eq!(text(Some(&unbalanced), b"open 0\nopen\nshow 9 9\n"), "1 8 12 0 0\n2 21 0 0 0\n3 8 12 0 0\n");
    let mut looped = vec![words::head(1, 3, 1), words::senior(1, 2), words::senior(2, 1)];
    looped = words::closed(looped);
    assert_eq!(text(Some(&words::bytes(&looped)), b"open 0\nopen\nshow 9 9\n"), "1 22 1 0 0\n2 21 0 0 0\n3 22 1 0 0\n");
    for image in [
        None,
        Some(&[][..]),
        Some(&[0; 16385][..]),
        Some(&[0; 16388][..]),
        Some(&[0; 1_000_000][..]),
        Some(&ward::image_a()[..51]),
    ] {
        assert_eq!(text(image, b"open 0\n"), "1 1 0 0 0\n");
    }
}

#[test]
fn an_image_that_is_a_folder_counts_as_empty() {
    let folder = folder();
    std::fs::create_dir(folder.join("policy.img")).expect("a folder is made");
    assert_eq!(run_in(&folder, b"open 0\nask\n"), b"1 1 0 0 0\n2 21 0 0 0\n");
    std::fs::remove_dir_all(&folder).expect("the folder is removed");
}

#[test]
fn an_image_of_4096_words_is_read_whole_and_one_byte_more_is_refused() {
    let mut image = ward::image_a_filled();
    assert_eq!(image.len(), 16384);
    assert_eq!(text(Some(&image), b"open 0\nask 0 0 3 1f\n"), "1 0 0 0 0\n2 0 0 1 f\n");
    image.push(0);
    assert_eq!(text(Some(&image), b"open 0\nask 0 0 3 1f\n"), "1 1 0 0 0\n2 1 0 0 0\n");
}

#[test]
fn the_longest_readable_line_has_173_bytes() {
    let longest = format!("ask 000000000 000000000 {:064x} {:064x} 000000000 000000000", 3, 0x1f);
    assert_eq!(longest.len(), 173);
    let answered = |line: &str| text(Some(&ward::image_a()), format!("open 0\n{line}\nshow 0 0").as_bytes());
    assert_eq!(answered(&longest), "1 0 0 0 0\n2 0 0 1 f\n3 0 0 1 f\n");
    for tail in ["0", " ", "\r", "\0", " 0", "00000000000000000000", " open 0"] {
        assert_eq!(answered(&format!("{longest}{tail}")), "1 0 0 0 0\n2 21 0 0 0\n3 0 0 0 0\n", "{tail:?}");
    }
}

#[test]
fn a_line_of_megabytes_is_one_unreadable_line() {
    let long = [b"open 0\n", &b"ask 0 0 ".repeat(500_000)[..], b"\n", &b"7".repeat(3_000_000)[..], b"\nopen 0"].concat();
    assert_eq!(text(Some(&ward::image_a()), &long), "1 0 0 0 0\n2 21 0 0 0\n3 21 0 0 0\n4 0 1 0 0\n");
}

#[test]
fn many_lines_keep_their_numbers() {
    let script = b"open 0\nclose 0 0\n".repeat(40_000);
    let printed = text(Some(&ward::image_a()), &script);
    assert!(printed.ends_with("\n80000 0 0 0 0\n"));
}

/// A script of some calls and unreadable lines whose next line starts at a place.
fn script_up_to(place: usize) -> Vec<u8> {
    let mut script = b"open 0\nclose 0 0\n".repeat(20);
    while script.len() + 200 < place {
        script.extend(b"open 0 and a tail that no form has, for a line that is unreadable\n");
    }
    script.extend(vec![b'x'; place - 1 - script.len()]);
    script.push(b'\n');
    assert_eq!(script.len(), place);
    script
}

#[test]
fn a_line_across_two_chunks_is_one_line() {
    const CHUNK: usize = 65_536;
    let (image, folder) = (ward::image_a(), folder());
    let file = folder.join("script");
    std::fs::write(folder.join("policy.img"), &image).expect("the image is written");
    for chunks in 1..=2 {
        for before in 0..=20 {
            for end in [&b""[..], b"\n", b"\n\nshow 0 0"] {
                let mut script = script_up_to(chunks * CHUNK + 1 - before);
                script.extend(b"open 0\nask 0 0 3 1f 1 0");
                script.extend(end);
                std::fs::write(&file, &script).expect("the script is written");
                assert_eq!(run_on_file(&folder, &file), output(Some(&image), &script), "{before} before chunk {chunks}");
            }
        }
    }
    std::fs::remove_dir_all(&folder).expect("the folder is removed");
}

#[test]
fn a_line_of_many_chunks_from_a_file_is_one_unreadable_line() {
    let (image, folder) = (ward::image_a(), folder());
    let file = folder.join("script");
    std::fs::write(folder.join("policy.img"), &image).expect("the image is written");
    for length in [65_535, 65_536, 65_537, 131_072, 5_000_000] {
        let script = [&vec![b'7'; length][..], b"\nopen 0\n"].concat();
        std::fs::write(&file, &script).expect("the script is written");
        assert_eq!(run_on_file(&folder, &file), b"1 21 0 0 0\n2 0 0 0 0\n");
    }
    std::fs::remove_dir_all(&folder).expect("the folder is removed");
}

#[test]
fn answers_before_it_waits_for_more() {
    let folder = folder();
    std::fs::write(folder.join("policy.img"), ward::image_a()).expect("the image is written");
    let mut child = start_in(&folder);
    let mut input = child.stdin.take().expect("the program reads");
    let mut answers = BufReader::new(child.stdout.take().expect("the program prints"));
    let mut say = |text: &[u8], expected: &str| {
        input.write_all(text).expect("the program takes the script");
        let mut line = String::new();
        answers.read_line(&mut line).expect("the program answers");
        assert_eq!(line, expected);
    };
    say(b"open 0\nask 0", "1 0 0 0 0\n");
    say(b" 0 3 1f\n", "2 0 0 1 f\n");
    say(b"\nsho", "3 21 0 0 0\n");
    say(b"w 0 0\nshow 0 ", "4 0 0 1 f\n");
    drop(say);
    drop(input);
    let mut rest = String::new();
    answers.read_line(&mut rest).expect("the program answers");
    assert_eq!(rest, "5 21 0 0 0\n");
    assert!(child.wait().expect("the program ends").success());
    std::fs::remove_dir_all(&folder).expect("the folder is removed");
}

/// A fresh folder with image A in it.
fn ward_folder() -> PathBuf {
    let folder = folder();
    std::fs::write(folder.join("policy.img"), ward::image_a()).expect("the image is written");
    folder
}

/// The run printed and said this, and ended with status 0.
fn assert_ended(ending: &Ending, printed: &str, said: &str) {
    assert_eq!((&*ending.printed, &*ending.said, ending.status.code()), (printed, said, Some(0)));
}

/// A script that is longer than what a pipe and the program hold of it.
fn long_script() -> Vec<u8> {
    b"open 0\n".repeat(1_000_000)
}

#[test]
fn says_that_a_full_device_takes_no_answers_and_stops_reading() {
    let folder = ward_folder();
    let on_full = |script: &[u8]| {
        let mut command = program::command(&folder);
        command.stdout(OpenOptions::new().write(true).open("/dev/full").expect("/dev/full is there"));
        ending(start(command), script)
    };
    let said = "nutrameza_script: standard output can't be written: No space left on device\n";
    assert_ended(&on_full(b""), "", "");
    for script in [&b"open 0\n"[..], b"open 0", b"\nopen 0"] {
        assert_ended(&on_full(script), "", said);
    }
    let long = on_full(&long_script());
    assert_ended(&long, "", said);
    assert!(!long.took_all, "the program stops reading");
    std::fs::remove_dir_all(&folder).expect("the folder is removed");
}

#[test]
fn ends_where_nobody_reads_its_answers() {
    let folder = ward_folder();
    let mut child = start_in(&folder);
    drop(child.stdout.take());
    let ending = ending(child, &long_script());
    assert_ended(&ending, "", "nutrameza_script: standard output can't be written: Broken pipe\n");
    assert!(!ending.took_all, "the program stops reading");
    std::fs::remove_dir_all(&folder).expect("the folder is removed");
}

#[test]
fn says_that_nobody_reads_its_answers_where_that_signal_is_ignored() {
    let folder = ward_folder();
    let mut child = start(program::command_by_shell(&folder, "trap '' PIPE", ""));
    drop(child.stdout.take());
    let ending = ending(child, &long_script());
    assert_ended(&ending, "", "nutrameza_script: standard output can't be written: Broken pipe\n");
    assert!(!ending.took_all, "the program stops reading");
    std::fs::remove_dir_all(&folder).expect("the folder is removed");
}

#[test]
fn says_that_a_folder_is_no_script() {
    let folder = ward_folder();
    let mut command = program::command(&folder);
    command.stdin(File::open(&folder).expect("the folder is opened"));
    assert_ended(&ending(start(command), b""), "", "nutrameza_script: standard input can't be read: Is a directory\n");
    std::fs::remove_dir_all(&folder).expect("the folder is removed");
}

#[test]
fn says_that_input_or_output_is_closed() {
    let folder = ward_folder();
    let redirected = |how: &str| ending(start(program::command_by_shell(&folder, "", how)), b"open 0\n");
    assert_ended(&redirected("<&-"), "", "nutrameza_script: standard input can't be read: Bad file descriptor\n");
    assert_ended(&redirected(">&-"), "", "nutrameza_script: standard output can't be written: Bad file descriptor\n");
    assert_ended(&redirected("2>&-"), "1 0 0 0 0\n", "");
    assert_ended(&redirected(">&- 2>&-"), "", "");
    std::fs::remove_dir_all(&folder).expect("the folder is removed");
}

/// The program with a read that fails behind the first ten bytes.
fn with_failing_read(folder: &Path) -> Command {
    program::preloaded(program::command(folder), folder, "failing_read")
}

#[test]
fn a_line_that_a_failed_read_cuts_gets_no_answer() {
    let folder = ward_folder();
    let mut command = with_failing_read(&folder);
    command.env("FAILING_INPUT", "1");
    let said = "nutrameza_script: standard input can't be read: Input/output error\n";
    assert_ended(&ending(start(command), b"open 0\nopen 0\nopen 0\n"), "1 0 0 0 0\n", said);
    std::fs::remove_dir_all(&folder).expect("the folder is removed");
}

#[test]
fn an_image_whose_reading_fails_midway_counts_as_empty() {
    let folder = ward_folder();
    assert_ended(&ending(start(with_failing_read(&folder)), b"open 0\nask\n"), "1 1 0 0 0\n2 21 0 0 0\n", "");
    assert_ended(&ending(start_in(&folder), b"open 0\nask\n"), "1 0 0 0 0\n2 21 0 0 0\n", "");
    std::fs::remove_dir_all(&folder).expect("the folder is removed");
}

#[test]
fn an_image_that_may_not_be_read_counts_as_empty() {
    const NOBODY: u32 = 65534;
    // a folder that every user may enter, with a copy of the program that every user may run
    let folder = std::env::temp_dir().join(format!("nutrameza-{}", std::process::id()));
    let (image, copy) = (folder.join("policy.img"), folder.join("nutrameza_script"));
    std::fs::create_dir(&folder).expect("a folder is made");
    std::fs::set_permissions(&folder, Permissions::from_mode(0o755)).expect("the folder is open to all");
    std::fs::write(&image, ward::image_a()).expect("the image is written");
    let copied = Command::new("install").args(["-m", "755"]).arg(program::path()).arg(&copy).status().expect("install is there");
    assert!(copied.success(), "the program is copied");
    let set_mode = |mode: u32| std::fs::set_permissions(&image, Permissions::from_mode(mode)).expect("the image's mode is set");
    set_mode(0o000);
    let is_bound = File::open(&image).is_err();
    let answered = |mode: u32| {
        set_mode(mode);
        let mut command = program::command_of(&copy, &folder);
        if !is_bound {
            command.uid(NOBODY).gid(NOBODY);
        }
        ending(start(command), b"open 0\nask\n")
    };
    assert_ended(&answered(0o444), "1 0 0 0 0\n2 21 0 0 0\n", "");
    assert_ended(&answered(0o000), "1 1 0 0 0\n2 21 0 0 0\n", "");
    std::fs::remove_dir_all(&folder).expect("the folder is removed");
}

#[test]
fn prints_what_the_golden_files_say() {
    for case in golden() {
        let (answers, name) = (case.says("answers"), case.folder.display());
        assert_eq!(text(case.image.as_deref(), &case.script), answers, "{name}");
        assert_eq!(run_on_file(&case.folder, &case.folder.join("script")), answers.as_bytes(), "{name}");
    }
}

/// Cuts a script at lines until it is as short as it can be and still fails.
fn shrunk(image: &[u8], script: &[u8]) -> Vec<u8> {
    let fails = |script: &[u8]| run(Some(image), script) != output(Some(image), script);
    let mut lines: Vec<&[u8]> = script.split_inclusive(|byte| *byte == b'\n').collect();
    let mut place = lines.len();
    while place > 0 {
        place -= 1;
        let mut less = lines.clone();
        less.remove(place);
        if fails(&less.concat()) {
            lines = less;
        }
    }
    lines.concat()
}

#[test]
fn plays_generated_scripts_as_the_solver_does() {
    let tally = spread("scripts", 600, |rng: &mut Rng, tally| {
        let draft = if rng.one_in(12) { policy::limits(rng) } else { policy::policy(rng, policy::SMALL) };
        let (mut image, policy) = draft.built();
        let length = rng.from_to(0, 120) as usize;
        let script = script::script(rng, &policy, length);
        if rng.one_in(12) {
            image = damage::image(rng);
        }
        let printed = run(Some(&image), &script);
        if printed != output(Some(&image), &script) {
            let small = shrunk(&image, &script);
            let (printed, expected) = (run(Some(&image), &small), output(Some(&image), &small));
            let texts = [&small, &printed, &expected].map(|text| String::from_utf8_lossy(text).into_owned());
            panic!("script {:?}\nprints {:?}\nthe solver {:?}\nimage {image:02x?}", texts[0], texts[1], texts[2]);
        }
        for line in String::from_utf8_lossy(&printed).lines() {
            tally.see_number(line.split(' ').nth(1).and_then(|number| number.parse().ok()).unwrap_or(99));
        }
    });
    tally.expect(20, &["0", "10", "12", "13", "14", "16", "17", "18", "20", "21"]);
}
