//! The programs as they are started: input, output and exit status.

mod started;

use std::fs;
use std::io::{pipe, PipeWriter, Read};
use std::process::{Command, Output, Stdio};

use started::{start, LONG, SECOND, STORED, TAPES};

#[test]
fn a_whole_tape_ends_with_status_0() {
    let output = start(SECOND, &[], &[4, 5]);
    assert_eq!(output.stdout, b"refused 21\nopen 21 0 0\nend\n");
    assert_eq!(output.status.code(), Some(0));
}

#[test]
fn an_empty_tape_ends_with_status_0() {
    let output = start(SECOND, &[], &[]);
    assert_eq!(output.stdout, b"end\n");
    assert_eq!(output.status.code(), Some(0));
}

#[test]
fn a_refused_tape_ends_with_status_1() {
    let output = start(SECOND, &[], &[4, 2, 0x80, 0x00]);
    assert_eq!(output.stdout, b"refused 21\ntape 31 2\n");
    assert_eq!(output.status.code(), Some(1));
}

#[test]
fn a_file_that_cannot_be_read_ends_with_status_2_and_one_line() {
    let output = start(SECOND, &["there-is-no-such.tape"], &[]);
    assert!(output.stdout.is_empty());
    assert_eq!(output.status.code(), Some(2));
    let told = String::from_utf8_lossy(&output.stderr);
    assert_eq!(told.lines().count(), 1);
    assert!(told.contains("there-is-no-such.tape"));
}

#[test]
fn two_files_are_too_many() {
    let output = start(SECOND, &["one.tape", "two.tape"], &[]);
    assert_eq!(output.status.code(), Some(2));
}

/// The tallies of a tape without turns.
const ZEROS: &str = "\
tally 0 0 0 0
tally 1 0 0 0
tally 2 0 0 0
tally 3 0 0 0
tally 4 0 0 0
tally 5 0 0 0
tally 6 0 0 0
tally 7 0 0 0
tally 8 0 0 0
";

#[test]
fn tallies_of_the_worked_example_follow_its_end() {
    let file = format!("{STORED}/worked-example.tape");
    let tape = fs::read(&file).expect("a stored tape");
    let whole = "\
set 0
open 0 0 0
submit 0
submit 0
turn 2 0 1 0 1
turn 7 0 2 3 0
fill 1 2 3 100
refused 5
end
tally 0 0 0 0
tally 1 0 0 0
tally 2 1 3 0
tally 3 0 0 0
tally 4 0 0 0
tally 5 0 0 0
tally 6 0 0 0
tally 7 1 0 3
tally 8 0 0 0
";
    for (arguments, input) in [
        (&["--tallies", &file][..], &[][..]),
        (&["--tallies"], &tape),
    ] {
        let output = start(SECOND, arguments, input);
        assert_eq!(String::from_utf8_lossy(&output.stdout), whole);
        assert_eq!(String::from_utf8_lossy(&output.stderr), "");
        assert_eq!(output.status.code(), Some(0));
    }
}

#[test]
fn tallies_without_settings_are_zeros() {
    for (tape, lines) in [
        (&[][..], "end\n"),
        (&[4, 5], "refused 21\nopen 21 0 0\nend\n"),
    ] {
        let output = start(SECOND, &["--tallies"], tape);
        let whole = format!("{lines}{ZEROS}");
        assert_eq!(String::from_utf8_lossy(&output.stdout), whole);
        assert_eq!(output.status.code(), Some(0));
    }
}

#[test]
fn tallies_follow_a_refused_tape_too() {
    let output = start(SECOND, &["--tallies"], &[4, 2, 0x80, 0x00]);
    let whole = format!("refused 21\ntape 31 2\n{ZEROS}");
    assert_eq!(String::from_utf8_lossy(&output.stdout), whole);
    assert_eq!(output.status.code(), Some(1));
}

#[test]
fn tallies_change_neither_the_lines_before_nor_the_status() {
    for file in fs::read_dir(STORED).expect("a folder of stored tapes") {
        let file = file.expect("a file of the folder").path();
        if file.extension().is_none_or(|kind| kind != "tape") {
            continue;
        }
        let lines = fs::read_to_string(file.with_extension("out")).expect("its lines");
        let name = file.to_str().expect("a plain name");
        let plain = start(SECOND, &[name], &[]);
        assert_eq!(String::from_utf8_lossy(&plain.stdout), lines, "{name}");
        let output = start(SECOND, &["--tallies", name], &[]);
        let printed = String::from_utf8_lossy(&output.stdout);
        let tallies = printed.strip_prefix(&lines).expect("the same lines first");
        assert_eq!(tallies.lines().count(), 9, "{name}");
        for (tenant, line) in tallies.lines().enumerate() {
            assert!(line.starts_with(&format!("tally {tenant} ")), "{name}");
        }
        assert_eq!(output.status.code(), plain.status.code(), "{name}");
    }
}

#[test]
fn tallies_are_asked_for_before_one_tape() {
    let file = format!("{STORED}/worked-example.tape");
    for arguments in [
        &[&file, "--tallies"][..],
        &["--tallies", &file, &file],
        &["--tallies", "there-is-no-such.tape"],
    ] {
        let output = start(SECOND, arguments, &[]);
        assert!(output.stdout.is_empty(), "{arguments:?}");
        assert_eq!(output.status.code(), Some(2), "{arguments:?}");
        let told = String::from_utf8_lossy(&output.stderr);
        assert_eq!(told.lines().count(), 1, "{arguments:?}");
    }
}

/// A tape and its words with places, as `tapes` shows them.
const SHOWN: (&[u8], &str) = (
    &[2, 100, 0, 4, 0, 4],
    "away bid 100 offer 0 # byte 0\nturn # byte 3\nraw 00 04 # byte 4\n",
);

#[test]
fn a_tape_from_standard_input_is_shown_with_its_places() {
    let (tape, words) = SHOWN;
    for arguments in [&["--show", "--places"][..], &["--places", "--show", "-"]] {
        let output = start(TAPES, arguments, tape);
        assert_eq!(String::from_utf8_lossy(&output.stdout), words);
        assert_eq!(output.status.code(), Some(0));
    }
}

#[test]
fn words_from_standard_input_are_made_into_a_tape() {
    let (tape, words) = SHOWN;
    for arguments in [&["--make"][..], &["--make", "-"]] {
        let output = start(TAPES, arguments, words.as_bytes());
        assert_eq!(output.stdout, tape);
        assert_eq!(output.status.code(), Some(0));
    }
}

#[test]
fn places_without_show_are_not_understood() {
    let output = start(TAPES, &["--make", "--places"], b"turn\n");
    assert!(output.stdout.is_empty());
    assert_eq!(output.status.code(), Some(2));
}

/// A pipe that nobody reads.
fn closed_pipe() -> PipeWriter {
    let (reader, writer) = pipe().expect("a pipe");
    drop(reader);
    writer
}

fn start_into_closed_pipe(program: &str, arguments: &[&str]) -> Output {
    Command::new(program)
        .args(arguments)
        .stdin(Stdio::null())
        .stdout(closed_pipe())
        .stderr(Stdio::piped())
        .output()
        .expect("the program starts")
}

#[test]
fn a_pipe_closed_early_is_no_complaint_in_any_mode() {
    let words = format!("{STORED}/worked-example.words");
    let text = concat!(env!("CARGO_TARGET_TMPDIR"), "/closed-early.figures");
    fs::write(text, "4\n".repeat(100_000)).expect("a text in figures");
    let sheet = concat!(env!("CARGO_MANIFEST_DIR"), "/../tests/sheets/day.sheet");
    let starts: [(&str, &[&str]); 17] = [
        (SECOND, &[]),
        (SECOND, &[LONG]),
        (SECOND, &["--tallies"]),
        (SECOND, &["--tallies", LONG]),
        (SECOND, &["--write", text]),
        (SECOND, &["--again", LONG]),
        (SECOND, &["--sheet", sheet]),
        (TAPES, &["--help"]),
        (TAPES, &["--seed", "1", "--events", "50000"]),
        (TAPES, &["--report", LONG]),
        (TAPES, &["--show", LONG]),
        (TAPES, &["--show", "--places", LONG]),
        (TAPES, &["--make", &words]),
        (TAPES, &["--figures-of", LONG]),
        (TAPES, &["--figures-report", text]),
        (TAPES, &["--sheets-report", sheet]),
        (TAPES, &["--compare", STORED, STORED]),
    ];
    for (program, arguments) in starts {
        let output = start_into_closed_pipe(program, arguments);
        assert_eq!(output.status.code(), Some(141), "{program} {arguments:?}");
        assert_eq!(String::from_utf8_lossy(&output.stderr), "");
    }
}

#[test]
fn a_pipe_closed_after_some_lines_is_no_complaint() {
    for (program, arguments) in [(SECOND, &[LONG][..]), (TAPES, &["--show", LONG])] {
        let mut program = Command::new(program)
            .args(arguments)
            .stdout(Stdio::piped())
            .stderr(Stdio::piped())
            .spawn()
            .expect("the program starts");
        let mut lines = program.stdout.take().expect("a piped output");
        lines.read_exact(&mut [0; 100]).expect("the first lines");
        drop(lines);
        let output = program.wait_with_output().expect("the program ends");
        assert_eq!(output.status.code(), Some(141));
        assert_eq!(String::from_utf8_lossy(&output.stderr), "");
    }
}

#[test]
fn a_complaint_that_nobody_reads_ends_with_status_2() {
    for (program, arguments) in [(SECOND, &["no-such.tape"][..]), (TAPES, &["--seed"])] {
        let status = Command::new(program)
            .args(arguments)
            .stderr(closed_pipe())
            .status()
            .expect("the program starts");
        assert_eq!(status.code(), Some(2));
    }
}
