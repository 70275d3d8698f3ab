//! Right lines and right texts.

use super::{Counts, BUFFER};

/// The numbers at both ends of each length, one to five bytes.
const ENDS: [u32; 10] = [
    0,
    127,
    128,
    16_383,
    16_384,
    2_097_151,
    2_097_152,
    268_435_455,
    268_435_456,
    u32::MAX,
];

/// Where a value stands.
const PLACES: [&str; 5] = ["a setting", "a bid", "an offer", "a tenant", "an entry's"];

/// Events with values, and of which numbers they may be alone.
const VALUED: [&str; 4] = ["settings", "away", "submit of 1", "submit of 20"];
const ALIKE: [&str; 7] = [
    "zeros",
    "largest numbers",
    "1-byte numbers",
    "2-byte numbers",
    "3-byte numbers",
    "4-byte numbers",
    "5-byte numbers",
];

const PLAIN_NAMES: [&str; 16] = [
    "written settings",
    "written away",
    "written submit of 1",
    "written submit of 2 to 19",
    "written submit of 20",
    "written turn",
    "written open",
    "text of 0 bytes",
    "text of one line",
    "text of several lines",
    "text of 65,536 bytes",
    "text above 65,536 bytes",
    "tape above 65,536 bytes",
    "line that ends with byte 65,536",
    "newline behind byte 65,536",
    "number across byte 65,536",
];

pub fn names() -> Vec<String> {
    let ends = PLACES
        .iter()
        .flat_map(|place| ENDS.map(|end| end_name(end, place)));
    let alike = VALUED
        .iter()
        .flat_map(|event| ALIKE.map(|numbers| format!("written {event} in {numbers}")));
    let plain = PLAIN_NAMES.iter().map(|name| name.to_string());
    plain.chain(alike).chain(ends).collect()
}

fn end_name(end: u32, place: &str) -> String {
    format!("written {end} as {place}")
}

/// Counts an event that was written, by its numbers.
pub fn witness_event(counts: &mut Counts, numbers: &[u32]) {
    match numbers {
        [1, values @ ..] => {
            counts.add("written settings");
            alike(counts, "settings", values);
            ends(counts, PLACES[0], values);
        }
        [2, values @ ..] => {
            counts.add("written away");
            alike(counts, "away", values);
            ends(counts, PLACES[1], &values[..1]);
            ends(counts, PLACES[2], &values[1..]);
        }
        [3, tenant, count, entries @ ..] => submit(counts, *tenant, *count, entries),
        [4] => counts.add("written turn"),
        _ => counts.add("written open"),
    }
}

fn submit(counts: &mut Counts, tenant: u32, count: u32, entries: &[u32]) {
    let event = match count {
        1 => "submit of 1",
        20 => "submit of 20",
        _ => "submit of 2 to 19",
    };
    counts.add(format!("written {event}"));
    if VALUED.contains(&event) {
        alike(counts, event, &[&[tenant], entries].concat());
    }
    ends(counts, PLACES[3], &[tenant]);
    ends(counts, PLACES[4], entries);
}

/// Counts an event whose values are all of one length, or all one end of it.
fn alike(counts: &mut Counts, event: &str, values: &[u32]) {
    let all = |is: fn(&u32) -> bool| values.iter().all(is);
    let name = |numbers| format!("written {event} in {numbers}");
    counts.add_if(all(|value| *value == 0), name(ALIKE[0]));
    counts.add_if(all(|value| *value == u32::MAX), name(ALIKE[1]));
    for (length, numbers) in ALIKE[2..].iter().enumerate() {
        let (low, high) = (ENDS[2 * length], ENDS[2 * length + 1]);
        let within = values.iter().all(|value| (low..=high).contains(value));
        counts.add_if(within, name(numbers));
    }
}

fn ends(counts: &mut Counts, place: &str, values: &[u32]) {
    for value in values {
        counts.add_if(ENDS.contains(value), end_name(*value, place));
    }
}

/// Counts a right line by how it meets the end of a buffer.
pub fn witness_place(counts: &mut Counts, line: &[u8], start: usize) {
    let end = start + line.len();
    counts.add_if(end == BUFFER, "line that ends with byte 65,536");
    counts.add_if(end == BUFFER + 1, "newline behind byte 65,536");
    if start < BUFFER && BUFFER < end {
        let sides = [line[BUFFER - start - 1], line[BUFFER - start]];
        let figures = sides.iter().all(u8::is_ascii_digit);
        counts.add_if(figures, "number across byte 65,536");
    }
}

/// Counts a text that was written whole.
pub fn witness_text(counts: &mut Counts, text: &[u8], tape_length: usize) {
    let lines = text.iter().filter(|byte| **byte == b'\n').count();
    counts.add(match lines {
        0 => "text of 0 bytes",
        1 => "text of one line",
        _ => "text of several lines",
    });
    counts.add_if(text.len() == BUFFER, "text of 65,536 bytes");
    counts.add_if(text.len() > BUFFER, "text above 65,536 bytes");
    counts.add_if(tape_length > BUFFER, "tape above 65,536 bytes");
}
