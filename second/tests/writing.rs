//! Writing tapes, from figures and once more: the programs as they are started.

mod started;
mod texts;

use std::fs;
use std::io::Write;

use started::{start, LONG, SECOND, STORED, TAPES};
use texts::{a_round_reaches_all, ends, folder, stands_before_one_file, told, waiting, wrote};

const SETTINGS: &str = "1 1 1 1 10000 10 20 10 25 500 0 0\n";

/// The worked example in figures.
fn worked_example() -> String {
    SETTINGS.to_string() + "5\n3 2 1 1 1 1 100 5 0\n3 7 1 1 2 2 100 3 0\n4\n4\n4\n"
}

#[test]
fn the_worked_example_is_written_from_its_figures() {
    let tape = fs::read(format!("{STORED}/worked-example.tape")).expect("a stored tape");
    assert_eq!(tape.len(), 36);
    let file = folder("worked-example").join("text.figures");
    fs::write(&file, worked_example()).expect("a text");
    let name = file.to_str().expect("a plain name");
    wrote(&start(SECOND, &["--write", name], &[]), &tape, 0);
    let piped = start(SECOND, &["--write"], worked_example().as_bytes());
    wrote(&piped, &tape, 0);
}

#[test]
fn no_text_is_an_empty_tape() {
    wrote(&start(SECOND, &["--write"], &[]), &[], 0);
}

#[test]
fn a_refused_line_is_told_and_the_events_before_it_are_written() {
    let texts: [(&str, &[u8], &str); 12] = [
        ("4\n5\n6x\n4\n", &[4, 5], "write 41 3\n"),
        ("\n", &[], "write 41 1\n"),
        ("\n\n\n", &[], "write 41 1\n"),
        ("4\n4", &[4], "write 41 2\n"),
        ("4", &[], "write 41 1\n"),
        ("2 300 0\n4 4\n\n", &[2, 0xac, 0x02, 0], "write 41 2\n"),
        ("4\r\n", &[], "write 41 1\n"),
        ("5\n 4\n", &[5], "write 41 2\n"),
        ("5\n4 \n", &[5], "write 41 2\n"),
        ("5\n2  1 1\n", &[5], "write 41 2\n"),
        ("5\n04\n", &[5], "write 41 2\n"),
        ("5\n2 4294967296 1\n", &[5], "write 41 2\n"),
    ];
    for (text, tape, line) in texts {
        let output = start(SECOND, &["--write"], text.as_bytes());
        assert_eq!(output.stdout, tape, "{text:?}");
        assert_eq!(told(&output), line, "{text:?}");
        assert_eq!(output.status.code(), Some(1), "{text:?}");
    }
}

#[test]
fn a_wrong_line_far_down_is_told_with_its_number() {
    let text = worked_example().repeat(20_000) + "4 4\n";
    let output = start(SECOND, &["--write"], text.as_bytes());
    assert_eq!(output.stdout.len(), 20_000 * 36);
    assert_eq!(told(&output), "write 41 140001\n");
    assert_eq!(output.status.code(), Some(1));
}

#[test]
fn nothing_after_the_refused_line_is_waited_for() {
    let mut program = waiting("--write");
    let mut text = program.stdin.take().expect("a piped input");
    text.write_all(b"5\n5 5\n").expect("two lines");
    text.flush().expect("two lines");
    let ended = ends(&mut program);
    drop(text);
    let output = program.wait_with_output().expect("the program ends");
    assert!(ended, "the text went on");
    assert_eq!(output.stdout, [5]);
    assert_eq!(told(&output), "write 41 2\n");
}

#[test]
fn every_stored_tape_comes_again() {
    for file in fs::read_dir(STORED).expect("a folder of stored tapes") {
        let file = file.expect("a file of the folder").path();
        if file.extension().is_none_or(|kind| kind != "tape") {
            continue;
        }
        let tape = fs::read(&file).expect("a stored tape");
        let name = file.to_str().expect("a plain name");
        let again = start(SECOND, &["--again", name], &[]);
        assert_eq!(told(&again), "", "{name}");
        let lines = fs::read_to_string(file.with_extension("out")).expect("its lines");
        if lines.ends_with("end\n") {
            wrote(&again, &tape, 0);
        } else {
            assert!(tape.starts_with(&again.stdout), "{name}");
            assert!(again.stdout.len() < tape.len(), "{name}");
            assert_eq!(again.status.code(), Some(1), "{name}");
        }
        let figures = start(TAPES, &["--figures-of", name], &[]);
        let written = start(SECOND, &["--write"], &figures.stdout);
        wrote(&written, &again.stdout, 0);
    }
}

#[test]
fn a_refused_tape_comes_again_as_its_readable_front() {
    wrote(&start(SECOND, &["--again"], &[]), &[], 0);
    let tapes: [(&[u8], &[u8]); 4] = [
        (&[4, 5, 2, 0x80, 0x00], &[4, 5]),
        (&[4, 5, 2, 100], &[4, 5]),
        (&[2, 0xac, 0x02, 0, 14, 4], &[2, 0xac, 0x02, 0]),
        (&[3, 8, 21], &[]),
    ];
    for (tape, front) in tapes {
        wrote(&start(SECOND, &["--again"], tape), front, 1);
    }
}

#[test]
fn each_option_stands_before_one_file_that_can_be_read() {
    stands_before_one_file("--write", LONG, &["--tallies", "--again"]);
    stands_before_one_file("--again", LONG, &["--tallies", "--write"]);
}

#[test]
fn a_tape_is_shown_in_figures_as_far_as_it_can_be_read() {
    let tape = [2, 0xac, 0x02, 0, 4, 0, 4];
    for arguments in [&["--figures-of"][..], &["--figures-of", "-"]] {
        wrote(&start(TAPES, arguments, &tape), b"2 300 0\n4\n", 0);
    }
    let file = folder("figures-of").join("text.figures");
    let name = file.to_str().expect("a plain name");
    wrote(
        &start(TAPES, &["--figures-of", "--out", name], &tape),
        &[],
        0,
    );
    assert_eq!(fs::read(&file).expect("a text"), b"2 300 0\n4\n");
}

#[test]
fn a_round_of_texts_reaches_every_outcome_and_comes_again() {
    a_round_reaches_all("--figures", "texts", "figures");
}
