//! Order sheets: the programs as they are started, and the stored sheets.

mod started;
mod texts;

use std::fs;
use std::io::Write;
use std::path::{Path, PathBuf};
use std::process::Output;
use std::thread::sleep;
use std::time::Duration;

use started::{start, LONG, SECOND, STORED, TAPES};
use texts::{a_round_reaches_all, ends, folder, stands_before_one_file, told, waiting, wrote};

const LMT: &str = "3 BUY 500 LMT 12.50 NOW\n";
const LMT_TAPE: [u8; 11] = [3, 3, 1, 1, 1, 2, 0xe2, 0x09, 0xf4, 0x03, 0];
const MKT: &str = "7 SELL 20 MKT - NOW\n";
const MKT_TAPE: [u8; 9] = [3, 7, 1, 2, 2, 2, 0, 20, 0];

/// Checks a program that wrote this tape and told a refusal.
fn refused(output: &Output, tape: &[u8], line: &str) {
    assert!(output.stdout == tape, "{:x?}", output.stdout);
    assert_eq!(told(output), line);
    assert_eq!(output.status.code(), Some(1));
}

#[test]
fn a_sheet_is_read_from_a_file_and_through_a_pipe() {
    let sheet = LMT.to_string() + MKT;
    let tape = [&LMT_TAPE[..], &MKT_TAPE].concat();
    let file = folder("sheet").join("two.sheet");
    fs::write(&file, &sheet).expect("a sheet");
    let name = file.to_str().expect("a plain name");
    wrote(&start(SECOND, &["--sheet", name], &[]), &tape, 0);
    wrote(&start(SECOND, &["--sheet"], sheet.as_bytes()), &tape, 0);
}

#[test]
fn an_empty_sheet_is_an_empty_tape() {
    wrote(&start(SECOND, &["--sheet"], &[]), &[], 0);
}

#[test]
fn a_refused_line_is_told_and_the_submits_before_it_are_written() {
    let lines: [(String, u32); 10] = [
        ("\n".to_string(), 44),
        ("3\n".to_string(), 43),
        (LMT.replace("NOW", "now"), 43),
        (LMT.replace("12.50", "12.5"), 44),
        (LMT.replace('\n', "\r\n"), 43),
        ("x".repeat(64) + "\n", 44),
        ("x".repeat(65) + "\n", 42),
        ("x".repeat(64), 45),
        ("x".repeat(65), 42),
        (MKT.trim_end().to_string(), 45),
    ];
    for (line, refusal) in lines {
        let output = start(SECOND, &["--sheet"], (LMT.to_string() + &line).as_bytes());
        refused(&output, &LMT_TAPE, &format!("sheet {refusal} 2\n"));
        if !line.ends_with('\n') {
            continue;
        }
        for behind in [MKT, "\n", "x"] {
            let sheet = LMT.to_string() + &line + behind;
            let output = start(SECOND, &["--sheet"], sheet.as_bytes());
            refused(&output, &LMT_TAPE, &format!("sheet {refusal} 2\n"));
        }
    }
}

#[test]
fn a_wrong_line_far_down_is_told_with_its_number() {
    let sheet = LMT.repeat(20_000) + "3 BUY\n" + LMT;
    let output = start(SECOND, &["--sheet"], sheet.as_bytes());
    refused(&output, &LMT_TAPE.repeat(20_000), "sheet 44 20001\n");
}

/// Hands the sheet over byte by byte, each for itself.
fn byte_by_byte(sheet: &[u8]) -> Output {
    let mut program = waiting("--sheet");
    let mut pipe = program.stdin.take().expect("a piped input");
    for byte in sheet {
        // A program that has refused a line reads no more.
        let sent = pipe.write_all(&[*byte]).and_then(|()| pipe.flush());
        if sent.is_err() {
            break;
        }
        sleep(Duration::from_micros(200));
    }
    drop(pipe);
    program.wait_with_output().expect("the program ends")
}

#[test]
fn a_sheet_that_comes_byte_by_byte_gives_the_same() {
    let too_long = "0".repeat(65);
    for last in ["", "\n", "3\n", "7 SELL 20 MKT -", "0000\n", &too_long] {
        let sheet = LMT.to_string() + MKT + LMT + last;
        let whole = start(SECOND, &["--sheet"], sheet.as_bytes());
        let parts = byte_by_byte(sheet.as_bytes());
        assert_eq!(parts.stdout, whole.stdout, "{sheet}");
        assert_eq!(parts.stdout.len(), 31, "{sheet}");
        assert_eq!(told(&parts), told(&whole), "{sheet}");
        assert_eq!(parts.status.code(), whole.status.code(), "{sheet}");
        assert_eq!(told(&parts).is_empty(), last.is_empty(), "{sheet}");
    }
}

#[test]
fn nothing_after_the_refused_line_is_waited_for() {
    let too_long = "x".repeat(65);
    for (last, line) in [
        ("3 BUY\n", "sheet 44 2\n"),
        ("\n", "sheet 44 2\n"),
        ("3 BUY 500 LMT 12.50 NOW \n", "sheet 43 2\n"),
        (&too_long, "sheet 42 2\n"),
    ] {
        let mut program = waiting("--sheet");
        let mut sheet = program.stdin.take().expect("a piped input");
        sheet.write_all(LMT.as_bytes()).expect("a line");
        sheet.write_all(last.as_bytes()).expect("a line");
        sheet.flush().expect("two lines");
        let ended = ends(&mut program);
        drop(sheet);
        let output = program.wait_with_output().expect("the program ends");
        assert!(ended, "the sheet went on: {last:?}");
        refused(&output, &LMT_TAPE, line);
    }
}

#[test]
fn sixty_four_bytes_may_still_be_a_line() {
    for (rest, line) in [
        ("", "sheet 45 2\n"),
        ("\n", "sheet 44 2\n"),
        ("x", "sheet 42 2\n"),
    ] {
        let mut program = waiting("--sheet");
        let mut sheet = program.stdin.take().expect("a piped input");
        sheet.write_all(LMT.as_bytes()).expect("a line");
        sheet.write_all(&[b'x'; 64]).expect("the start of a line");
        sheet.flush().expect("a line and the start of one");
        sleep(Duration::from_millis(100));
        assert!(matches!(program.try_wait(), Ok(None)), "{line}");
        sheet.write_all(rest.as_bytes()).expect("the rest");
        drop(sheet);
        let output = program.wait_with_output().expect("the program ends");
        refused(&output, &LMT_TAPE, line);
    }
}

#[test]
fn the_option_stands_before_one_file_that_can_be_read() {
    let day = stored()
        .into_iter()
        .find(|sheet| sheet.ends_with("day.sheet"));
    let day = day.expect("a stored sheet");
    let name = day.to_str().expect("a plain name");
    stands_before_one_file("--sheet", name, &["--tallies", "--write", "--again"]);
    stands_before_one_file("--sheet", LONG, &["--tallies", "--write", "--again"]);
}

#[test]
fn a_round_of_sheets_reaches_every_outcome_and_comes_again() {
    a_round_reaches_all("--sheets", "sheets", "sheet");
}

/// Where the stored sheets lie.
fn shelf() -> PathBuf {
    Path::new(env!("CARGO_MANIFEST_DIR")).join("../tests/sheets")
}

/// The stored sheets.
fn stored() -> Vec<PathBuf> {
    let files = fs::read_dir(shelf()).expect("a folder of stored sheets");
    let sheets: Vec<PathBuf> = files
        .map(|file| file.expect("a file of the folder").path())
        .filter(|file| file.extension().is_some_and(|kind| kind == "sheet"))
        .collect();
    assert!(!sheets.is_empty(), "no sheet in {}", shelf().display());
    sheets
}

#[test]
fn every_stored_sheet_gives_its_tape_its_line_and_its_status() {
    for file in stored() {
        let name = file.to_str().expect("a plain name");
        let sheet = fs::read(&file).expect("a stored sheet");
        let tape = fs::read(file.with_extension("tape")).expect("its tape");
        let line = fs::read_to_string(file.with_extension("err")).expect("its line");
        for output in [
            start(SECOND, &["--sheet", name], &[]),
            start(SECOND, &["--sheet"], &sheet),
            byte_by_byte(&sheet),
        ] {
            assert_eq!(output.stdout, tape, "{name}");
            assert_eq!(told(&output), line, "{name}");
            let status = i32::from(!line.is_empty());
            assert_eq!(output.status.code(), Some(status), "{name}");
        }
        wrote(&start(SECOND, &["--again"], &tape), &tape, 0);
    }
}

#[test]
fn every_stored_sheet_is_told_of_and_no_other() {
    let told = fs::read_to_string(shelf().join("README.md")).expect("what the sheets show");
    let rows = told.lines().filter_map(|line| line.strip_prefix("| "));
    let mut rows: Vec<&str> = rows.filter_map(|row| row.split(" | ").next()).collect();
    let mut names: Vec<String> = stored()
        .iter()
        .filter_map(|file| Some(file.file_stem()?.to_string_lossy().into_owned()))
        .collect();
    rows.retain(|name| *name != "sheet");
    rows.sort_unstable();
    names.sort_unstable();
    assert_eq!(rows, names);
}

#[test]
fn the_day_is_played_between_an_opening_and_turns() {
    let words = fs::read_to_string(format!("{STORED}/worked-example.words")).expect("words");
    let opened = words
        .split_inclusive("\nopen\n")
        .next()
        .expect("an opening");
    let mut tape = start(TAPES, &["--make"], opened.as_bytes()).stdout;
    tape.extend(fs::read(shelf().join("day.tape")).expect("a stored tape"));
    tape.extend([4; 11]);
    let lines = "\
turn 1 0 1 0 1
turn 2 0 2 0 1
turn 4 0 3 0 1
turn 5 0 4 0 1
turn 7 0 5 6 0
fill 4 5 4 104
fill 2 2 2 105
turn 8 0 6 7 0
fill 3 4 5 102
fill 1 1 2 100
turn 1 0 7 0 1
turn 2 0 8 0 1
turn 5 0 9 16 2
fill 2 2 6 105
fill 8 2 10 108
turn 7 0 10 2 0
fill 7 1 2 101
refused 5
end
";
    let whole = format!("set 0\nopen 0 0 0\n{}{lines}", "submit 0\n".repeat(10));
    wrote(&start(SECOND, &[], &tape), whole.as_bytes(), 0);
}
