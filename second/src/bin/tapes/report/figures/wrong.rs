//! The ways in which a refused line is wrong.

use second::figures::numbers;
use second::tape::{write_number, Event, Reader};
use second::writer::{written, ROOM_ENOUGH};

use super::{Counts, LONG_LINE};

const SPACES: [&str; 8] = [
    "empty line",
    "one space alone",
    "several spaces alone",
    "one space at the start",
    "several spaces at the start",
    "one space at the end",
    "several spaces at the end",
    "two spaces between numbers",
];

const EVENTS: [&str; 26] = [
    "event number 0",
    "event number 14",
    "event number 15",
    "event number 133",
    "event number 4294967295",
    "another event number above 15",
    "event number right in its lowest seven bits",
    "event number right in its lowest byte",
    "event number right in its lowest two bytes",
    "event number right in its lowest 31 bits",
    "settings alone",
    "settings and one number less",
    "settings and one number more",
    "away alone",
    "away and one number less",
    "away and one number more",
    "submit alone",
    "submit without a count",
    "turn and one number more",
    "open and one number more",
    "two events, settings first",
    "two events, away first",
    "two events, submit first",
    "two events, turn first",
    "two events, open first",
    "three events or more",
];

const OTHER_COUNTS: [&str; 16] = [
    "count 0 and no number",
    "count 0 and entries",
    "count 21 and 21 entries",
    "count 21 and 20 entries",
    "count 21 and no number",
    "count 4294967295",
    "count above 21, right in its lowest seven bits",
    "count above 21, right in its lowest byte",
    "count above 21, right in its lowest two bytes",
    "count above 21, right in its lowest 31 bits",
    "count that six times is 0 in 32 bits",
    "count that six times is one entry in 32 bits",
    "count that six times is 20 entries in 32 bits",
    "count that six times is no whole entry in 32 bits",
    "count 1 and no number",
    "count 2 and six numbers",
];

const LONG_LINES: [&str; 6] = [
    "more than 615 numbers",
    "one number above 70,000 bytes",
    "numbers above 70,000 bytes",
    "spaces above 70,000 bytes at the start",
    "spaces above 70,000 bytes at the end",
    "strays above 70,000 bytes",
];

const UNENDED: [&str; 7] = [
    "settings without newline",
    "away without newline",
    "submit without newline",
    "turn without newline",
    "open without newline",
    "wrong besides and without newline",
    "above 70,000 bytes and without newline",
];

/// What may be left of an event number or a count.
const LOW_BITS: [(u32, &str); 4] = [
    (0x7f, "seven bits"),
    (0xff, "byte"),
    (0xffff, "two bytes"),
    (0x7fff_ffff, "31 bits"),
];

/// How many numbers a submit is off what it counts, and the counts apart.
const OFF: [&str; 4] = ["entry less", "entry more", "number less", "number more"];
const COUNTS: [&str; 3] = ["count 1", "count 2 to 19", "count 20"];

const SPELLINGS: [&str; 13] = [
    "00",
    "01",
    "0 before a number",
    "zeros before a number",
    "4294967296",
    "10 figures",
    "11 to 19 figures",
    "20 figures",
    "21 to 39 figures",
    "40 figures",
    "a number right in 32 bits",
    "a number right in 64 bits",
    "a number right in 128 bits",
];

const SPOTS: [&str; 4] = [
    "as the only number",
    "as the first number",
    "between numbers",
    "as the last number",
];

const STRAYS: [&str; 10] = [
    "letter",
    "plus",
    "minus",
    "tab",
    "carriage return",
    "NUL",
    "byte above 127",
    "slash or colon",
    "other mark",
    "other control",
];

const STRAY_SPOTS: [&str; 5] = [
    "alone",
    "at the start",
    "at the end",
    "beside a space",
    "between figures",
];

pub fn names() -> Vec<String> {
    let plain: [&[&str]; 5] = [&SPACES, &EVENTS, &OTHER_COUNTS, &LONG_LINES, &UNENDED];
    let plain = plain.concat().into_iter().map(str::to_string);
    let off = COUNTS
        .iter()
        .flat_map(|count| OFF.map(|off| off_name(count, off)));
    let spelt = SPELLINGS
        .iter()
        .flat_map(|spelling| SPOTS.map(|spot| format!("{spelling} {spot}")));
    let strays = STRAYS
        .iter()
        .flat_map(|stray| STRAY_SPOTS.map(|spot| format!("{stray} {spot}")));
    let ways = plain.chain(off).chain(spelt).chain(strays);
    ways.map(|way| format!("write 41 {way}")).collect()
}

fn off_name(count: &str, off: &str) -> String {
    format!("{count} and one {off}")
}

/// Counts ways to be wrong.
struct Ways<'a>(&'a mut Counts);

impl Ways<'_> {
    fn add(&mut self, way: impl AsRef<str>) {
        self.0.add(format!("write 41 {}", way.as_ref()));
    }

    fn add_if(&mut self, met: bool, way: &str) {
        if met {
            self.add(way);
        }
    }
}

pub fn witness(counts: &mut Counts, line: &[u8]) {
    let mut ways = Ways(counts);
    match line.strip_suffix(b"\n") {
        Some(line) => ended(&mut ways, line),
        None => unended(&mut ways, line),
    }
}

fn unended(ways: &mut Ways, line: &[u8]) {
    let right = numbers(line).filter(|numbers| written(numbers).is_ok());
    ways.add(match right.as_deref().map(first_kind) {
        Some(kind) => format!("{kind} without newline"),
        None => "wrong besides and without newline".to_string(),
    });
    let long = line.len() > LONG_LINE;
    ways.add_if(long, "above 70,000 bytes and without newline");
}

fn first_kind(numbers: &[u32]) -> &'static str {
    match numbers {
        [1, ..] => "settings",
        [2, ..] => "away",
        [3, ..] => "submit",
        [4, ..] => "turn",
        _ => "open",
    }
}

/// A line with its newline is wrong in the first of these ways: it is empty, it
/// has a stray byte, its spaces are wrong, a number is misspelt, or its numbers
/// are not one event.
fn ended(ways: &mut Ways, line: &[u8]) {
    let stray = line
        .iter()
        .position(|byte| !byte.is_ascii_digit() && *byte != b' ');
    very_long(ways, line, stray.is_some());
    match (stray, numbers(line)) {
        (Some(place), _) => stray_byte(ways, line, place),
        (None, Some(numbers)) => misfit(ways, &numbers),
        (None, None) if line.is_empty() => ways.add("empty line"),
        (None, None) if !spaces(ways, line) => misspelt(ways, line),
        _ => {}
    }
}

fn very_long(ways: &mut Ways, line: &[u8], stray: bool) {
    let parts = line.split(|byte| *byte == b' ');
    let count = parts.filter(|part| !part.is_empty()).count();
    ways.add_if(count > ROOM_ENOUGH, "more than 615 numbers");
    if line.len() > LONG_LINE {
        ways.add(match (line.first(), line.last()) {
            _ if stray => "strays above 70,000 bytes",
            (Some(b' '), _) => "spaces above 70,000 bytes at the start",
            (_, Some(b' ')) => "spaces above 70,000 bytes at the end",
            _ if count > 1 => "numbers above 70,000 bytes",
            _ => "one number above 70,000 bytes",
        });
    }
}

fn stray_byte(ways: &mut Ways, line: &[u8], place: usize) {
    let stray = STRAYS[match line[place] {
        b'a'..=b'z' | b'A'..=b'Z' => 0,
        b'+' => 1,
        b'-' => 2,
        b'\t' => 3,
        b'\r' => 4,
        0 => 5,
        0x80.. => 6,
        b'/' | b':' => 7,
        byte if byte.is_ascii_punctuation() => 8,
        _ => 9,
    }];
    let before = place.checked_sub(1).map(|before| line[before]);
    let spot = STRAY_SPOTS[match (before, line.get(place + 1)) {
        (None, None) => 0,
        (None, Some(_)) => 1,
        (Some(_), None) => 2,
        (Some(b' '), _) | (_, Some(b' ')) => 3,
        _ => 4,
    }];
    ways.add(format!("{stray} {spot}"));
}

/// Counts spaces at wrong places; tells whether there are any.
fn spaces(ways: &mut Ways, line: &[u8]) -> bool {
    let figures = line.trim_ascii();
    let start = line.len() - line.trim_ascii_start().len();
    let end = line.len() - line.trim_ascii_end().len();
    if figures.is_empty() {
        ways.add(format!("{} alone", some_spaces(start)));
        return true;
    }
    if start > 0 {
        ways.add(format!("{} at the start", some_spaces(start)));
    }
    if end > 0 {
        ways.add(format!("{} at the end", some_spaces(end)));
    }
    let two = figures.windows(2).any(|pair| pair == b"  ");
    ways.add_if(two, "two spaces between numbers");
    start > 0 || end > 0 || two
}

fn some_spaces(count: usize) -> &'static str {
    match count {
        1 => "one space",
        _ => "several spaces",
    }
}

/// Counts numbers with a zero in front and numbers too large.
fn misspelt(ways: &mut Ways, line: &[u8]) {
    let parts: Vec<&[u8]> = line.split(|byte| *byte == b' ').collect();
    for (place, part) in parts.iter().enumerate() {
        if numbers(part).is_some() {
            continue;
        }
        let spot = SPOTS[match place {
            0 if parts.len() == 1 => 0,
            0 => 1,
            last if last + 1 == parts.len() => 3,
            _ => 2,
        }];
        ways.add(format!("{} {spot}", spelling(part)));
        if part[0] != b'0' {
            right_in_few_bits(ways, &parts, spot);
        }
    }
}

fn spelling(figures: &[u8]) -> &'static str {
    match figures {
        b"00" => "00",
        b"01" => "01",
        [b'0', b'0', ..] => "zeros before a number",
        [b'0', ..] => "0 before a number",
        b"4294967296" => "4294967296",
        _ => match figures.len() {
            ..=10 => "10 figures",
            11..=19 => "11 to 19 figures",
            20 => "20 figures",
            21..=39 => "21 to 39 figures",
            40.. => "40 figures",
        },
    }
}

/// Counts a line that is right where numbers too large lose their high bits.
fn right_in_few_bits(ways: &mut Ways, parts: &[&[u8]], spot: &str) {
    for bits in [32, 64, 128] {
        let low: Option<Vec<u32>> = parts.iter().map(|part| low_bits(part, bits)).collect();
        if low.is_some_and(|numbers| written(&numbers).is_ok()) {
            ways.add(format!("a number right in {bits} bits {spot}"));
        }
    }
}

/// What is left of a number in so many bits, where that is one of the tape's.
fn low_bits(figures: &[u8], bits: u32) -> Option<u32> {
    let value = figures.iter().fold(0_u128, |value, figure| {
        let digit = u128::from(figure - b'0');
        value.wrapping_mul(10).wrapping_add(digit)
    });
    let cut = 128 - bits;
    u32::try_from(value << cut >> cut).ok()
}

/// Counts numbers that are not one event.
fn misfit(ways: &mut Ways, numbers: &[u32]) {
    match numbers {
        [1, values @ ..] => other_length(ways, "settings", values.len(), 11),
        [2, values @ ..] => other_length(ways, "away", values.len(), 2),
        [3] => ways.add("submit alone"),
        [3, _] => ways.add("submit without a count"),
        [3, _, count, behind @ ..] => other_count(ways, *count, behind.len()),
        [4, values @ ..] => other_length(ways, "turn", values.len(), 0),
        [5, values @ ..] => other_length(ways, "open", values.len(), 0),
        [event, rest @ ..] => other_event(ways, *event, rest),
        [] => {}
    }
    match events_of(numbers).as_deref() {
        Some([first, _]) => ways.add(format!(
            "two events, {} first",
            first_kind(&first.numbers())
        )),
        Some([_, _, _, ..]) => ways.add("three events or more"),
        _ => {}
    }
}

fn other_length(ways: &mut Ways, event: &str, length: usize, due: usize) {
    if length == 0 {
        ways.add(format!("{event} alone"));
    } else if length + 1 == due {
        ways.add(format!("{event} and one number less"));
    } else if length == due + 1 {
        ways.add(format!("{event} and one number more"));
    }
}

/// Only numbers that stay unknown are ways to be wrong: document 02 gives 6 to
/// 13 a meaning.
fn other_event(ways: &mut Ways, event: u32, rest: &[u32]) {
    match event {
        0 | 14 | 15 | 133 | u32::MAX => ways.add(format!("event number {event}")),
        16.. => ways.add("another event number above 15"),
        1..=13 => {}
    }
    for (mask, name) in LOW_BITS {
        if written(&[&[event & mask], rest].concat()).is_ok() {
            ways.add(format!("event number right in its lowest {name}"));
        }
    }
}

fn other_count(ways: &mut Ways, count: u32, behind: usize) {
    match (count, behind) {
        (0, 0) => ways.add("count 0 and no number"),
        (0, _) => ways.add("count 0 and entries"),
        (21, 126) => ways.add("count 21 and 21 entries"),
        (21, 120) => ways.add("count 21 and 20 entries"),
        (21, 0) => ways.add("count 21 and no number"),
        (1..=20, _) => count_off(ways, count, behind),
        (u32::MAX, _) => ways.add("count 4294967295"),
        _ => count_right_in_few_bits(ways, count, behind),
    }
}

fn count_off(ways: &mut Ways, count: u32, behind: usize) {
    ways.add_if((count, behind) == (1, 0), "count 1 and no number");
    ways.add_if((count, behind) == (2, 6), "count 2 and six numbers");
    let due = 6 * count as usize;
    let off = [due - 6, due + 6, due - 1, due + 1];
    let name = COUNTS[match count {
        1 => 0,
        20 => 2,
        _ => 1,
    }];
    if let Some(place) = off.iter().position(|length| *length == behind) {
        ways.add(off_name(name, OFF[place]));
    }
}

/// Counts a count above 21 that is right where it, or six times it, loses its
/// high bits.
fn count_right_in_few_bits(ways: &mut Ways, count: u32, behind: usize) {
    for (mask, name) in LOW_BITS {
        let low = count & mask;
        if (1..=20).contains(&low) && behind == 6 * low as usize {
            ways.add(format!("count above 21, right in its lowest {name}"));
        }
    }
    if u32::try_from(behind) == Ok(count.wrapping_mul(6)) {
        ways.add(match behind {
            0 => "count that six times is 0 in 32 bits",
            6 => "count that six times is one entry in 32 bits",
            120 => "count that six times is 20 entries in 32 bits",
            _ => "count that six times is no whole entry in 32 bits",
        });
    }
}

/// The events that the numbers are, one behind another; none where some are
/// left over.
fn events_of(numbers: &[u32]) -> Option<Vec<Event>> {
    let mut tape = Vec::new();
    for number in numbers {
        write_number(*number, &mut tape);
    }
    let mut reader = Reader::new(&tape);
    let mut events = Vec::new();
    while let Some(event) = reader.event().ok()? {
        events.push(event);
    }
    Some(events)
}
