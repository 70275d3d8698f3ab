//! Where in its text a refused line stands.

use second::figures::Events;

use super::{line_at, Counts, BUFFER, LONG_LINE};

const NAMES: [&str; 17] = [
    "write 41 in the only line",
    "write 41 in the first of several lines",
    "write 41 between other lines",
    "write 41 in the last of several lines",
    "write 41 before right lines alone",
    "write 41 before another wrong line",
    "write 41 in a text of one newline",
    "write 41 in a text of newlines",
    "write 41 at a line number of 2 figures",
    "write 41 at a line number of 3 figures",
    "write 41 at a line number of 4 figures",
    "write 41 at a line number of 5 figures",
    "write 41 in a line behind 65,536 bytes",
    "write 41 in a line across byte 65,536",
    "write 41 without newline in the only line",
    "write 41 without newline in a text of 65,536 bytes",
    "write 41 without newline behind 65,536 bytes",
];

pub fn names() -> Vec<String> {
    NAMES.iter().map(|name| name.to_string()).collect()
}

pub fn witness(counts: &mut Counts, text: &[u8], start: usize, number: u64) {
    let line = line_at(text, start);
    let end = start + line.len();
    among_lines(counts, number == 1, &text[end..]);
    newlines(counts, text);
    let figures = number.to_string().len();
    counts.add_if(
        (2..=5).contains(&figures),
        format!("write 41 at a line number of {figures} figures"),
    );
    let behind = start == BUFFER;
    counts.add_if(behind, "write 41 in a line behind 65,536 bytes");
    let across = start < BUFFER && BUFFER < end && line.len() < LONG_LINE;
    counts.add_if(across, "write 41 in a line across byte 65,536");
    if !line.ends_with(b"\n") {
        counts.add_if(start == 0, "write 41 without newline in the only line");
        let just = end == BUFFER;
        counts.add_if(just, "write 41 without newline in a text of 65,536 bytes");
        counts.add_if(behind, "write 41 without newline behind 65,536 bytes");
    }
}

fn among_lines(counts: &mut Counts, first: bool, behind: &[u8]) {
    counts.add(match (first, behind.is_empty()) {
        (true, true) => "write 41 in the only line",
        (true, false) => "write 41 in the first of several lines",
        (false, true) => "write 41 in the last of several lines",
        (false, false) => "write 41 between other lines",
    });
    if !behind.is_empty() {
        counts.add(if is_right(behind) {
            "write 41 before right lines alone"
        } else {
            "write 41 before another wrong line"
        });
    }
}

/// Whether a text has no line to refuse.
fn is_right(text: &[u8]) -> bool {
    let mut events = Events::new(text);
    loop {
        match events.event() {
            Ok(Some(Ok(_))) => {}
            Ok(None) => return true,
            _ => return false,
        }
    }
}

fn newlines(counts: &mut Counts, text: &[u8]) {
    if text.iter().all(|byte| *byte == b'\n') {
        counts.add(if text.len() == 1 {
            "write 41 in a text of one newline"
        } else {
            "write 41 in a text of newlines"
        });
    }
}
