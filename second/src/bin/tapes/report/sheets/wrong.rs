//! The ways in which a refused line is wrong.

use second::sheet::LONGEST_LINE;

use super::fields::{
    is_order, is_right, refused, split, wrong_places, KIND, LIFE, NAMES, PRICE, TENANT,
};
use super::{faults, Counts, BUFFER};

const TOO_LONG: [&str; 9] = [
    "sheet 42 in a line of 65 bytes",
    "sheet 42 in a line of 66 bytes",
    "sheet 42 in a line of 67 to 999 bytes",
    "sheet 42 in a line above 65,536 bytes",
    "sheet 42 in a line of 65 bytes without newline",
    "sheet 42 in a line of 66 bytes without newline",
    "sheet 42 in a line of 67 to 999 bytes without newline",
    "sheet 42 in a line above 65,536 bytes without newline",
    "sheet 42 in a line with an order behind 65 bytes",
];

const UNENDED: [&str; 6] = [
    "sheet 45 in a limit order",
    "sheet 45 in a market order",
    "sheet 45 in a line of 1 byte",
    "sheet 45 in a line of 63 bytes",
    "sheet 45 in a line of 64 bytes",
    "sheet 45 in a carriage return alone",
];

const SHAPES: [&str; 13] = [
    "sheet 44 empty line",
    "sheet 44 one space alone",
    "sheet 44 spaces alone",
    "sheet 44 carriage return alone",
    "sheet 44 byte order mark before an order",
    "sheet 44 tabs for spaces",
    "sheet 44 commas for spaces",
    "sheet 44 bytes 160 for spaces",
    "sheet 43 order and a space behind",
    "sheet 43 order and spaces behind",
    "sheet 43 order and a carriage return behind",
    "sheet 43 order and a word behind",
    "sheet 43 order and words behind",
];

pub fn names() -> Vec<String> {
    let mut names: Vec<String> = SHAPES.map(str::to_string).to_vec();
    names.extend((0..NAMES.len()).flat_map(names_of_field));
    names.extend(TOO_LONG.map(str::to_string));
    names.extend(NAMES.map(|name| over_name(42, name)));
    names.extend(UNENDED.map(str::to_string));
    names.extend(NAMES.map(|name| over_name(45, name)));
    names
}

fn over_name(refusal: u32, field: &str) -> String {
    format!("sheet {refusal} over a wrong {field}")
}

/// All ways for the leftmost wrong field to be this one.
fn names_of_field(place: usize) -> Vec<String> {
    let mut ways: Vec<String> = faults::names(place)
        .iter()
        .map(|way| way.to_string())
        .collect();
    match place {
        PRICE => ways.extend(["LMT", "MKT"].map(empty_price)),
        _ => ways.push("empty".to_string()),
    }
    ways.push(behind_space(place).to_string());
    if place > TENANT {
        ways.push("missing".to_string());
    }
    if place > TENANT && place < LIFE {
        ways.push("missing behind a space".to_string());
    }
    if place < LIFE {
        ways.extend(["left out", "with the next in one", "wrong and last"].map(str::to_string));
    }
    if place < PRICE {
        ways.push("and all behind it wrong".to_string());
    }
    ways.extend(NAMES[place + 1..].iter().map(|other| before(other)));
    ways.extend([63, 64].map(long_line));
    let refused = refused(place);
    ways.iter().map(|way| format!("{refused} {way}")).collect()
}

fn behind_space(place: usize) -> &'static str {
    match place {
        TENANT => "behind a space",
        _ => "behind two spaces",
    }
}

fn empty_price(kind: &str) -> String {
    format!("empty after {kind}")
}

fn before(other: &str) -> String {
    format!("before a wrong {other}")
}

fn long_line(length: usize) -> String {
    format!("in a line of {length} bytes")
}

/// Counts a refused line, which has its newline if there is one.
pub fn witness(counts: &mut Counts, line: &[u8], refusal: u32) {
    let (ended, line) = match line {
        [line @ .., b'\n'] => (true, line),
        _ => (false, line),
    };
    match refusal {
        42 => too_long(counts, line, ended),
        45 => unended(counts, line),
        _ => by_field(counts, line, refusal),
    }
}

fn too_long(counts: &mut Counts, line: &[u8], ended: bool) {
    let behind = if ended { "" } else { " without newline" };
    let length = match line.len() {
        length @ (65 | 66) => format!("of {length} bytes"),
        67..=999 => "of 67 to 999 bytes".to_string(),
        length if length > BUFFER => "above 65,536 bytes".to_string(),
        _ => return,
    };
    counts.add(format!("sheet 42 in a line {length}{behind}"));
    let (front, rest) = line.split_at(LONGEST_LINE + 1);
    counts.add_if(is_order(rest), TOO_LONG[8]);
    if let Some(place) = wrong_places(&split(front)).first() {
        counts.add(over_name(42, NAMES[*place]));
    }
}

fn unended(counts: &mut Counts, line: &[u8]) {
    let fields = split(line);
    match wrong_places(&fields).first() {
        None if fields[KIND] == b"LMT" => counts.add(UNENDED[0]),
        None => counts.add(UNENDED[1]),
        Some(place) => counts.add(over_name(45, NAMES[*place])),
    }
    match line.len() {
        1 => counts.add(UNENDED[2]),
        63 => counts.add(UNENDED[3]),
        64 => counts.add(UNENDED[4]),
        _ => {}
    }
    counts.add_if(line == b"\r", UNENDED[5]);
}

/// Counts a line by its leftmost wrong field. A line without one, or one that
/// is refused by another number than its field's, is an outcome that is on no
/// list.
fn by_field(counts: &mut Counts, line: &[u8], refusal: u32) {
    let fields = split(line);
    let wrong = wrong_places(&fields);
    let first = wrong.first().copied().unwrap_or_default();
    let refused = refused(first);
    if wrong.is_empty() || !refused.starts_with(&format!("sheet {refusal} ")) {
        return counts.add(format!("sheet {refusal} without a field that is wrong so"));
    }
    let mut add = |way: &str| counts.add(format!("{refused} {way}"));
    in_field(&mut add, &fields, first);
    around_field(&mut add, &fields, &wrong);
    if [63, 64].contains(&line.len()) {
        add(&long_line(line.len()));
    }
    shape(counts, line);
}

/// Counts what is wrong in the field itself.
fn in_field(add: &mut impl FnMut(&str), fields: &[&[u8]], place: usize) {
    let kind = fields.get(KIND).copied().unwrap_or_default();
    match fields.get(place).copied() {
        None if place > TENANT => add("missing"),
        Some(b"") if place + 1 == fields.len() && place > TENANT && place < LIFE => {
            add("missing behind a space");
        }
        Some(b"") if place == PRICE => add(&empty_price(&String::from_utf8_lossy(kind))),
        Some(b"") if fields.len() > 1 => add("empty"),
        Some(field) => {
            if let Some(fault) = faults::of(place, field, kind) {
                add(fault);
            }
        }
        None => {}
    }
}

/// Counts what else is wrong, and how the fields are out of their places.
fn around_field(add: &mut impl FnMut(&str), fields: &[&[u8]], wrong: &[usize]) {
    let first = wrong[0];
    let there: Vec<usize> = wrong[1..]
        .iter()
        .copied()
        .filter(|place| *place < fields.len())
        .collect();
    there.iter().for_each(|place| add(&before(NAMES[*place])));
    if first < PRICE && first + there.len() == LIFE {
        add("and all behind it wrong");
    }
    let last = fields.len() == first + 1 && !fields[first].is_empty();
    if last && first < LIFE {
        add("wrong and last");
    }
    moved(add, fields, first);
}

/// Counts fields out of their places, where all else is as in an order.
fn moved(add: &mut impl FnMut(&str), fields: &[&[u8]], place: usize) {
    let (front, rest) = fields.split_at(place.min(fields.len()));
    if fields.len() == LIFE && place < LIFE {
        if left_out(front, rest) {
            add("left out");
        }
        if glued(front, rest) {
            add("with the next in one");
        }
    }
    if one_space_more(front, rest) {
        add(behind_space(place));
    }
}

fn is_joined(parts: &[&[&[u8]]]) -> bool {
    is_order(&parts.concat().join(&b' '))
}

/// Whether a field put in between would make an order.
fn left_out(front: &[&[u8]], rest: &[&[u8]]) -> bool {
    let right: [&[u8]; 7] = [b"0", b"BUY", b"LMT", b"MKT", b"1.05", b"-", b"DAY"];
    right
        .iter()
        .any(|field| is_joined(&[front, &[field], rest]))
}

/// Whether a space put into the first of the rest would make an order.
fn glued(front: &[&[u8]], rest: &[&[u8]]) -> bool {
    let [both, rest @ ..] = rest else {
        return false;
    };
    (1..both.len()).any(|cut| {
        let (one, next) = both.split_at(cut);
        is_joined(&[front, &[one, next], rest])
    })
}

/// Whether the rest without a space at its start would make an order.
fn one_space_more(front: &[&[u8]], rest: &[&[u8]]) -> bool {
    let rest = rest.join(&b' ');
    let order = rest.strip_prefix(b" ");
    order.is_some_and(|rest| is_joined(&[front, &[rest]]))
}

/// Counts lines by their shape as a whole.
fn shape(counts: &mut Counts, line: &[u8]) {
    let spaces = line.iter().all(|byte| *byte == b' ');
    match line {
        [] => counts.add(SHAPES[0]),
        [b' '] => counts.add(SHAPES[1]),
        _ if spaces => counts.add(SHAPES[2]),
        b"\r" => counts.add(SHAPES[3]),
        [0xef, 0xbb, 0xbf, order @ ..] => counts.add_if(is_order(order), SHAPES[4]),
        _ => {}
    }
    for (byte, name) in [b'\t', b',', 0xa0].iter().zip(&SHAPES[5..]) {
        let spaced: Vec<u8> = line
            .iter()
            .map(|found| if found == byte { b' ' } else { *found })
            .collect();
        counts.add_if(!line.contains(&b' ') && is_order(&spaced), *name);
    }
    behind(counts, line);
}

/// Counts an order with something behind it.
fn behind(counts: &mut Counts, line: &[u8]) {
    let fields = split(line);
    let [.., life] = fields[..] else {
        return;
    };
    let right = fields.len() == NAMES.len()
        && wrong_places(&fields) == [LIFE]
        && life.len() > 3
        && is_right(LIFE, &life[..3], b"");
    if !right {
        return;
    }
    let words = life
        .split(|byte| *byte == b' ')
        .filter(|word| !word.is_empty());
    match (&life[3..], words.count()) {
        (b" ", _) => counts.add(SHAPES[8]),
        (b"\r", _) => counts.add(SHAPES[10]),
        (_, 1) => counts.add_if(life[3..].starts_with(b"  "), SHAPES[9]),
        (_, 2) => counts.add(SHAPES[11]),
        _ => counts.add(SHAPES[12]),
    }
}
