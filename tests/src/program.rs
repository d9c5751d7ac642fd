//! The programs as child processes: nutrameza_script, the one that NUTRAMEZA_PROGRAM names, else the repository's
//! target/bin/nutrameza_script; nutrameza_survey likewise by NUTRAMEZA_SURVEY.

use std::fs::File;
use std::io::Write;
use std::path::{Path, PathBuf};
use std::process::{Child, Command, ExitStatus, Stdio};
use std::sync::atomic::{AtomicU64, Ordering};

/// Where the script's program is.
pub fn path() -> PathBuf {
    named("NUTRAMEZA_PROGRAM", "nutrameza_script")
}

/// Where the survey is.
pub fn survey_path() -> PathBuf {
    named("NUTRAMEZA_SURVEY", "nutrameza_survey")
}

fn named(variable: &str, program: &str) -> PathBuf {
    let beside = Path::new(env!("CARGO_MANIFEST_DIR")).join("../target/bin").join(program);
    std::env::var_os(variable).map_or(beside, PathBuf::from)
}

/// A fresh folder below that of a test run, with an image unless there is none.
pub fn fresh(below: &str, image: Option<&[u8]>) -> PathBuf {
    static NEXT: AtomicU64 = AtomicU64::new(0);
    let number = NEXT.fetch_add(1, Ordering::Relaxed);
    let folder = Path::new(below).join(format!("{}-{number}", std::process::id()));
    std::fs::create_dir_all(&folder).expect("a folder is made");
    if let Some(image) = image {
        std::fs::write(folder.join("policy.img"), image).expect("the image is written");
    }
    folder
}

/// A golden case: its folder, its image, none where it has none, and its script.
pub struct Golden {
    pub folder: PathBuf,
    pub image: Option<Vec<u8>>,
    pub script: Vec<u8>,
}

impl Golden {
    /// What a file of the case says.
    pub fn says(&self, name: &str) -> String {
        std::fs::read_to_string(self.folder.join(name))
            .unwrap_or_else(|error| panic!("{}, {name}: {error}", self.folder.display()))
    }
}

/// The golden cases, by name.
pub fn golden() -> Vec<Golden> {
    let golden = Path::new(env!("CARGO_MANIFEST_DIR")).join("golden");
    let mut folders: Vec<PathBuf> =
        std::fs::read_dir(&golden).expect("the golden files").map(|entry| entry.expect("a folder").path()).collect();
    folders.sort();
    assert!(folders.len() >= 17, "{} golden folders", folders.len());
    let case = |folder: PathBuf| Golden {
        image: std::fs::read(folder.join("policy.img")).ok(),
        script: std::fs::read(folder.join("script")).expect("the script"),
        folder,
    };
    folders.into_iter().map(case).collect()
}

/// The program, to be started in a folder, with input, output and standard error as pipes.
pub fn command(folder: &Path) -> Command {
    command_of(&path(), folder)
}

/// The same of a copy of the program.
pub fn command_of(program: &Path, folder: &Path) -> Command {
    piped(Command::new(program), folder)
}

/// The program by a shell that runs a command first, as `trap '' PIPE`, or redirects it, as `<&-`.
pub fn command_by_shell(folder: &Path, first: &str, redirected: &str) -> Command {
    shell_of(&path(), folder, first, redirected)
}

/// The same of another program.
pub fn shell_of(program: &Path, folder: &Path, first: &str, redirected: &str) -> Command {
    let mut shell = Command::new("sh");
    shell.arg("-c").arg(format!("{first}\nexec \"$0\" {redirected}")).arg(program);
    piped(shell, folder)
}

fn piped(mut command: Command, folder: &Path) -> Command {
    command.current_dir(folder).stdin(Stdio::piped()).stdout(Stdio::piped()).stderr(Stdio::piped());
    command
}

/// A command with a read of its own, compiled into a folder from preload/NAME.c.
pub fn preloaded(mut command: Command, folder: &Path, name: &str) -> Command {
    let source = Path::new(env!("CARGO_MANIFEST_DIR")).join("preload").join(name).with_extension("c");
    let library = folder.join(name).with_extension("so");
    let compiled = Command::new("cc").args(["-shared", "-fPIC", "-o"]).arg(&library).arg(&source).status().expect("cc is there");
    assert!(compiled.success(), "{} is compiled", source.display());
    command.env("LD_PRELOAD", &library);
    command
}

/// A command started.
pub fn start(mut command: Command) -> Child {
    command.spawn().unwrap_or_else(|error| panic!("{command:?} starts: {error}"))
}

/// The program started in a folder, with input, output and standard error as pipes.
pub fn start_in(folder: &Path) -> Child {
    start(command(folder))
}

/// What a started program prints until it ends; it ends well and says nothing on standard error.
fn printed(child: Child) -> Vec<u8> {
    let output = child.wait_with_output().expect("the program ends");
    assert_eq!(String::from_utf8_lossy(&output.stderr), "");
    assert!(output.status.success(), "the program ends with {}", output.status);
    output.stdout
}

/// How a run ends, well or not: what is printed, what is said on standard error, the status, and whether the program
/// took the whole script.
pub struct Ending {
    pub printed: String,
    pub said: String,
    pub status: ExitStatus,
    pub took_all: bool,
}

/// How a started program ends that is given a script, unless its input is no pipe.
pub fn ending(mut child: Child, script: &[u8]) -> Ending {
    let input = child.stdin.take();
    let feed = move || input.is_none_or(|mut pipe| pipe.write_all(script).is_ok());
    std::thread::scope(|scope| {
        let feeder = scope.spawn(feed);
        let output = child.wait_with_output().expect("the program ends");
        let [printed, said] =
            [output.stdout, output.stderr].map(|text| String::from_utf8(text).expect("the program prints text"));
        Ending { printed, said, status: output.status, took_all: feeder.join().expect("the script is written") }
    })
}

/// What the program prints in a folder for a script from a pipe.
pub fn run_in(folder: &Path, script: &[u8]) -> Vec<u8> {
    let mut child = start_in(folder);
    let mut input = child.stdin.take().expect("the program reads");
    std::thread::scope(|scope| {
        scope.spawn(move || input.write_all(script).expect("the program takes the script"));
        printed(child)
    })
}

/// What the program prints in a folder for a script from a file, of which each read takes as much as the program asks
/// for.
pub fn run_on_file(folder: &Path, script: &Path) -> Vec<u8> {
    run_of_on_file(&path(), folder, script)
}

/// The same of another program.
pub fn run_of_on_file(program: &Path, folder: &Path, script: &Path) -> Vec<u8> {
    let file = File::open(script).expect("the script is there");
    let mut command = command_of(program, folder);
    command.stdin(file);
    printed(start(command))
}
