//! Outcomes of damaged tapes, by the kind of place of the bad number.

use second::tape::{read_number, Refused, TapeRefusal};

use super::Counts;

const PLACES: [&str; 7] = [
    "an event number",
    "a settings value",
    "an away quote",
    "a tenant",
    "a count",
    "a number of the first entry",
    "a number of a later entry",
];

const OTHERS: [&str; 9] = [
    "end",
    "end of an empty tape",
    "tape 33 event 0",
    "tape 33 event 14",
    "tape 33 event above 14",
    "tape 34 count 0",
    "tape 34 count 21",
    "tape 34 count above 21",
    "tape 30 missing between entries",
];

const WRONG: [&str; 5] = [
    "tape 30 missing",
    "tape 30 within",
    "tape 31 overlong",
    "tape 32 above the highest",
    "tape 32 fifth byte high",
];

pub fn names() -> Vec<String> {
    let placed = PLACES
        .iter()
        .flat_map(|place| WRONG.iter().map(move |wrong| format!("{wrong} at {place}")));
    // A tape that stops where an event number might come is a whole tape.
    let missing_event = format!("{} at {}", WRONG[0], PLACES[0]);
    OTHERS
        .iter()
        .map(|name| name.to_string())
        .chain(placed.filter(|name| *name != missing_event))
        .collect()
}

pub fn witness(counts: &mut Counts, tape: &[u8], start: usize, refused: Refused) {
    let given = read_number(tape, refused.place).map_or(0, |(number, _)| number);
    match refused.refusal {
        TapeRefusal::Event => unknown_event(counts, given),
        TapeRefusal::Count => counts.add(match given {
            0 => "tape 34 count 0",
            21 => "tape 34 count 21",
            _ => "tape 34 count above 21",
        }),
        _ => bad_number(counts, tape, start, refused),
    }
}

/// Only numbers that stay unknown are outcomes to reach: document 02 gives 6
/// to 13 a meaning, so that those which come by chance are not counted.
fn unknown_event(counts: &mut Counts, given: u32) {
    match given {
        0 => counts.add("tape 33 event 0"),
        14 => counts.add("tape 33 event 14"),
        15.. => counts.add("tape 33 event above 14"),
        1..=13 => {}
    }
}

fn bad_number(counts: &mut Counts, tape: &[u8], start: usize, refused: Refused) {
    let rest = &tape[refused.place..];
    let wrong = match refused.refusal {
        TapeRefusal::CutShort if rest.is_empty() => WRONG[0],
        TapeRefusal::CutShort => WRONG[1],
        TapeRefusal::Overlong => WRONG[2],
        _ if rest.get(4).is_some_and(|fifth| *fifth >= 0x80) => WRONG[4],
        _ => WRONG[3],
    };
    let before = numbers_before(tape, start, refused.place);
    counts.add(format!("{wrong} at {}", place_name(&before)));
    let between = before.first() == Some(&3) && before.len() > 3 && before.len() % 6 == 3;
    counts.add_if(
        between && wrong == WRONG[0],
        "tape 30 missing between entries",
    );
}

/// The sound numbers of the unfinished event.
fn numbers_before(tape: &[u8], start: usize, end: usize) -> Vec<u32> {
    let mut numbers = Vec::new();
    let mut place = start;
    while place < end {
        let Ok((number, next)) = read_number(tape, place) else {
            break;
        };
        numbers.push(number);
        place = next;
    }
    numbers
}

fn place_name(before: &[u32]) -> &'static str {
    match (before.first(), before.len()) {
        (None, _) => PLACES[0],
        (Some(1), _) => PLACES[1],
        (Some(2), _) => PLACES[2],
        (_, 1) => PLACES[3],
        (_, 2) => PLACES[4],
        (_, 3..=8) => PLACES[5],
        _ => PLACES[6],
    }
}
