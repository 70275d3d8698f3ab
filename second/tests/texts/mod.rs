//! What the tests of texts in figures and of order sheets have in common.

use std::fs;
use std::path::{Path, PathBuf};
use std::process::{Child, Command, Output, Stdio};
use std::thread::sleep;
use std::time::Duration;

use crate::started::{start, SECOND, TAPES};

/// A folder for the files of one test, empty.
pub fn folder(name: &str) -> PathBuf {
    let folder = PathBuf::from(env!("CARGO_TARGET_TMPDIR")).join(name);
    // There is none the first time.
    let _ = fs::remove_dir_all(&folder);
    fs::create_dir_all(&folder).expect("a folder");
    folder
}

pub fn told(output: &Output) -> String {
    String::from_utf8_lossy(&output.stderr).into_owned()
}

/// Checks a program that wrote these bytes and said nothing.
pub fn wrote(output: &Output, bytes: &[u8], status: i32) {
    assert!(output.stdout == bytes, "{:x?}", output.stdout);
    assert_eq!(told(output), "");
    assert_eq!(output.status.code(), Some(status));
}

/// The second program, started with this option and nothing to read yet.
pub fn waiting(option: &str) -> Child {
    Command::new(SECOND)
        .arg(option)
        .stdin(Stdio::piped())
        .stdout(Stdio::piped())
        .stderr(Stdio::piped())
        .spawn()
        .expect("the program starts")
}

/// Whether a program ends within ten seconds.
pub fn ends(program: &mut Child) -> bool {
    (0..1_000).any(|_| {
        sleep(Duration::from_millis(10));
        matches!(program.try_wait(), Ok(Some(_)))
    })
}

/// Checks that the option stands before one file that can be read, and beside
/// none of the others.
pub fn stands_before_one_file(option: &str, file: &str, others: &[&str]) {
    let folder = env!("CARGO_TARGET_TMPDIR");
    let mut wrong = vec![
        vec![option, "there-is-no-such.file"],
        vec![option, folder],
        vec![option, file, file],
        vec![option, option, file],
        vec![file, option],
    ];
    for other in others {
        wrong.push(vec![option, other, file]);
        wrong.push(vec![other, option, file]);
    }
    for arguments in wrong {
        let output = start(SECOND, &arguments, &[]);
        assert!(output.stdout.is_empty(), "{arguments:?}");
        assert_eq!(told(&output).lines().count(), 1, "{arguments:?}");
        assert_eq!(output.status.code(), Some(2), "{arguments:?}");
    }
}

/// How many texts make a round, as --help says.
fn round(noun: &str) -> String {
    let help = start(TAPES, &["--help"], &[]);
    let help = String::from_utf8_lossy(&help.stdout).into_owned();
    let (before, _) = help
        .split_once(&format!(" {noun} are one round"))
        .expect("the length of a round");
    let count = before.split_whitespace().last().expect("a number");
    count.to_string()
}

/// The texts of a folder by name.
fn texts(folder: &Path) -> Vec<(String, Vec<u8>)> {
    let files = fs::read_dir(folder).expect("a folder of texts");
    let mut texts: Vec<(String, Vec<u8>)> = files
        .map(|file| {
            let file = file.expect("a file of the folder");
            let name = file.file_name().to_string_lossy().into_owned();
            (name, fs::read(file.path()).expect("a text"))
        })
        .collect();
    texts.sort();
    texts
}

/// Checks that a round of what this option writes reaches every outcome and
/// comes again the same.
pub fn a_round_reaches_all(option: &str, noun: &str, kind: &str) {
    let count = round(noun);
    let folders = ["once", "again"].map(|which| folder(&format!("{noun}-{which}")));
    let written = folders.each_ref().map(|folder| {
        let dir = folder.to_str().expect("a plain name");
        let arguments = [option, &count, "--seed", "3", "--dir", dir];
        wrote(&start(TAPES, &arguments, &[]), &[], 0);
        texts(folder)
    });
    assert_eq!(written[0].len().to_string(), count);
    assert!(written[0] == written[1], "the {noun} differ");
    let names: Vec<String> = written[0]
        .iter()
        .map(|(name, _)| folders[0].join(name).to_string_lossy().into_owned())
        .collect();
    assert!(names
        .iter()
        .all(|name| name.ends_with(&format!("-3.{kind}"))));
    let report_option = format!("{option}-report");
    let mut arguments = vec![report_option.as_str()];
    arguments.extend(names.iter().map(String::as_str));
    let report = start(TAPES, &arguments, &[]);
    let table = String::from_utf8_lossy(&report.stdout);
    let last = table.lines().last().expect("a last line");
    assert!(last.starts_with(&format!("{count} {noun}, ")), "{last}");
    assert!(last.ends_with(", 0 missing"), "{last}");
    assert_eq!(report.status.code(), Some(0));
    // One of them does not reach all.
    let report = start(TAPES, &arguments[..2], &[]);
    let table = String::from_utf8_lossy(&report.stdout);
    assert!(table.lines().any(|line| line.starts_with("missing: ")));
    assert_eq!(report.status.code(), Some(1));
}
