//! The stored tapes, in words and in figures and back, and written again.

use std::fs;
use std::path::{Path, PathBuf};

use second::figures::{show, Events};
use second::tape::Reader;
use second::words::{make, show_places};
use second::writer::again;

/// The stored tapes.
fn tapes() -> Vec<PathBuf> {
    let folder = Path::new(env!("CARGO_MANIFEST_DIR")).join("../tests/tapes");
    let files = fs::read_dir(&folder).expect("a folder of stored tapes");
    let tapes: Vec<PathBuf> = files
        .map(|file| file.expect("a file of the folder").path())
        .filter(|file| file.extension().is_some_and(|kind| kind == "tape"))
        .collect();
    assert!(!tapes.is_empty(), "no tape in {}", folder.display());
    tapes
}

#[test]
fn every_stored_tape_has_words_that_make_its_bytes() {
    for file in tapes() {
        let tape = fs::read(&file).expect("a stored tape");
        let words = fs::read_to_string(file.with_extension("words"));
        let words =
            words.unwrap_or_else(|error| panic!("the words of {}: {error}", file.display()));
        assert_eq!(make(&words), Ok(tape), "{}", file.display());
    }
}

#[test]
fn every_stored_tape_is_shown_with_places_and_made_again() {
    for file in tapes() {
        let tape = fs::read(&file).expect("a stored tape");
        assert_eq!(make(&show_places(&tape)), Ok(tape), "{}", file.display());
    }
}

#[test]
fn every_place_is_the_count_of_the_bytes_before() {
    for file in tapes() {
        let tape = fs::read(&file).expect("a stored tape");
        let mut place = 0;
        for line in show_places(&tape).lines() {
            let remark = format!(" # byte {place}");
            assert!(line.ends_with(&remark), "{}: {line}", file.display());
            place += make(line).expect("the words of a line").len();
        }
    }
}

/// How many bytes of a tape are whole events, and whether these are all.
fn front(tape: &[u8]) -> (usize, bool) {
    let mut reader = Reader::new(tape);
    loop {
        let place = reader.place();
        match reader.event() {
            Ok(Some(_)) => {}
            Ok(None) => return (place, true),
            Err(_) => return (place, false),
        }
    }
}

#[test]
fn every_stored_tape_is_written_again_as_far_as_it_is_read() {
    let mut refused = 0;
    for file in tapes() {
        let tape = fs::read(&file).expect("a stored tape");
        let (length, whole) = front(&tape);
        let mut out = Vec::new();
        let ended = again(&tape, &mut out).expect("memory");
        assert_eq!(ended, whole, "{}", file.display());
        assert_eq!(out, tape[..length], "{}", file.display());
        assert_eq!(whole, length == tape.len(), "{}", file.display());
        refused += usize::from(!whole);
    }
    assert!(refused > 0, "no stored tape is refused");
}

#[test]
fn every_stored_tape_is_shown_in_figures_and_written_again() {
    for file in tapes() {
        let tape = fs::read(&file).expect("a stored tape");
        let (length, _) = front(&tape);
        let text = show(&tape);
        let mut events = Events::new(text.as_bytes());
        let mut written = Vec::new();
        while let Some(event) = events.event().expect("memory") {
            written
                .extend(event.unwrap_or_else(|refused| panic!("{}: {refused:?}", file.display())));
        }
        assert_eq!(written, tape[..length], "{}", file.display());
    }
}
