//! Where in its sheet a refused line stands.

use second::sheet::{RefusedLine, Submits};

use super::{line_at, Counts, BUFFER};

const NAMES: [&str; 19] = [
    "sheet refused in the only line",
    "sheet refused in the first of several lines",
    "sheet refused between other lines",
    "sheet refused in the last of several lines",
    "sheet 44 in a sheet of one newline",
    "sheet 44 in a sheet of newlines",
    "sheet refused at a line number of 2 figures",
    "sheet refused at a line number of 3 figures",
    "sheet refused at a line number of 4 figures",
    "sheet refused at a line number of 5 figures",
    "sheet refused in a line behind 65,536 bytes",
    "sheet refused in a line across byte 65,536",
    "sheet refused in the last line of more than 65,536 bytes",
    "sheet 42 at byte 65,536",
    "sheet 42 at the byte behind 65,536",
    "sheet 43 or 44 by the newline behind 65,536 bytes",
    "sheet 45 in a sheet of 65,536 bytes",
    "sheet 45 in a line across byte 65,536",
    "sheet 45 in a line behind 65,536 bytes",
];

/// What may be refused after what.
const REFUSALS: [u32; 4] = [42, 43, 44, 45];

pub fn names() -> Vec<String> {
    let plain = NAMES.map(str::to_string).into_iter();
    // Nothing comes behind a line without newline.
    let pairs = REFUSALS[..3].iter().flat_map(|first| {
        let before = REFUSALS.map(|second| before_name(*first, &second.to_string()));
        before.into_iter().chain([right_name(*first)])
    });
    plain.chain(pairs).collect()
}

fn before_name(first: u32, second: &str) -> String {
    format!("sheet {first} before a line of {second}")
}

fn right_name(first: u32) -> String {
    format!("sheet {first} before right lines alone")
}

pub fn witness(counts: &mut Counts, sheet: &[u8], start: usize, refused: RefusedLine) {
    let (refusal, number) = (refused.refusal.number(), refused.line);
    let end = start + line_at(sheet, start).len();
    among_lines(counts, number == 1, end == sheet.len());
    before(counts, refusal, &sheet[end..]);
    newlines(counts, sheet);
    let figures = number.to_string().len();
    counts.add_if(
        (2..=5).contains(&figures),
        format!("sheet refused at a line number of {figures} figures"),
    );
    at_the_buffer(counts, sheet, start, refusal);
}

fn among_lines(counts: &mut Counts, first: bool, last: bool) {
    counts.add(match (first, last) {
        (true, true) => NAMES[0],
        (true, false) => NAMES[1],
        (false, false) => NAMES[2],
        (false, true) => NAMES[3],
    });
}

/// Counts what the lines behind would give.
fn before(counts: &mut Counts, refusal: u32, behind: &[u8]) {
    if behind.is_empty() {
        return;
    }
    let mut submits = Submits::new(behind);
    let second = loop {
        match submits.submit() {
            Ok(Some(Ok(_))) => {}
            Ok(Some(Err(refused))) => break Some(refused.refusal.number()),
            _ => break None,
        }
    };
    counts.add(match second {
        Some(second) => before_name(refusal, &second.to_string()),
        None => right_name(refusal),
    });
}

fn newlines(counts: &mut Counts, sheet: &[u8]) {
    if sheet.iter().all(|byte| *byte == b'\n') {
        counts.add(if sheet.len() == 1 { NAMES[4] } else { NAMES[5] });
    }
}

fn at_the_buffer(counts: &mut Counts, sheet: &[u8], start: usize, refusal: u32) {
    let end = start + line_at(sheet, start).len();
    let (behind, across) = (start == BUFFER, start < BUFFER && BUFFER < end);
    counts.add_if(behind, NAMES[10]);
    counts.add_if(across && end - start < 70, NAMES[11]);
    counts.add_if(start > BUFFER && end == sheet.len(), NAMES[12]);
    match refusal {
        42 => {
            counts.add_if(start + 65 == BUFFER, NAMES[13]);
            counts.add_if(start + 64 == BUFFER, NAMES[14]);
        }
        43 | 44 => counts.add_if(end == BUFFER + 1, NAMES[15]),
        _ => {
            counts.add_if(end == BUFFER, NAMES[16]);
            counts.add_if(across, NAMES[17]);
            counts.add_if(behind, NAMES[18]);
        }
    }
}
