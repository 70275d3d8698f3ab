//! Right lines and right sheets.

use super::fields::{split, NAMES};
use super::{Counts, BUFFER};

/// Prices at the ends of what is asked for, of what submit takes and of what is
/// read.
const PRICES: [&str; 6] = [
    "0.00", "0.01", "9999.99", "10000.00", "10000.01", "99999.99",
];

const SIZES: [&str; 4] = ["0", "1", "000000", "999999"];

const PLAIN_NAMES: [&str; 11] = [
    "read line of 17 bytes",
    "read line of 30 bytes",
    "sheet of 0 bytes",
    "sheet of one line",
    "sheet of several lines",
    "sheet of more than 100 lines",
    "sheet of 65,536 bytes",
    "sheet above 65,536 bytes",
    "tape above 65,536 bytes",
    "line that ends with byte 65,536",
    "newline behind byte 65,536",
];

pub fn names() -> Vec<String> {
    let mut names: Vec<String> = Vec::new();
    for kind in ["LMT", "MKT"] {
        for side in ["BUY", "SELL"] {
            names.extend(["DAY", "NOW"].map(|life| format!("read {side} {kind} {life}")));
        }
    }
    names.extend((0..=9).map(|tenant| format!("read tenant {tenant}")));
    names.extend((1..=6).map(|length| length_name("size", length, "")));
    names.extend((1..=6).map(|length| length_name("size", length, ZERO_FIRST)));
    names.extend(SIZES.map(|size| format!("read size {size}")));
    names.extend((1..=5).map(|length| length_name("dollars", length, "")));
    names.extend((1..=5).map(|length| length_name("dollars", length, ZERO_FIRST)));
    names.extend(PRICES.map(|price| format!("read price {price}")));
    names.extend(PLAIN_NAMES.map(str::to_string));
    names.extend(NAMES[1..].iter().map(|name| across_name(name)));
    names
}

/// Where zeros stand before other digits, or alone.
const ZERO_FIRST: &str = ", 0 first";

fn length_name(what: &str, length: usize, zero_first: &str) -> String {
    format!("read {what} of length {length}{zero_first}")
}

fn across_name(field: &str) -> String {
    format!("{field} across byte 65,536")
}

/// Counts an order that was read, the line without its newline.
pub fn witness_order(counts: &mut Counts, order: &[u8]) {
    let text = String::from_utf8_lossy(order);
    let fields: Vec<&str> = text.split(' ').collect();
    let [tenant, side, size, kind, price, life] = fields[..] else {
        return counts.add("read line of other than six fields");
    };
    counts.add(format!("read {side} {kind} {life}"));
    counts.add(format!("read tenant {tenant}"));
    digits(counts, "size", size);
    counts.add_if(SIZES.contains(&size), format!("read size {size}"));
    if let Some((dollars, _)) = price.split_once('.') {
        digits(counts, "dollars", dollars);
    }
    counts.add_if(PRICES.contains(&price), format!("read price {price}"));
    let length = order.len();
    let at_an_end = [17, 30].contains(&length);
    counts.add_if(at_an_end, format!("read line of {length} bytes"));
}

fn digits(counts: &mut Counts, what: &str, digits: &str) {
    let zero_first = if digits.starts_with('0') {
        ZERO_FIRST
    } else {
        ""
    };
    counts.add(length_name(what, digits.len(), zero_first));
}

/// Counts an order by how its line meets the end of a buffer.
pub fn witness_place(counts: &mut Counts, order: &[u8], start: usize) {
    let end = start + order.len();
    counts.add_if(end + 1 == BUFFER, "line that ends with byte 65,536");
    counts.add_if(end == BUFFER, "newline behind byte 65,536");
    let mut from = start;
    for (field, name) in split(order).iter().zip(NAMES) {
        let to = from + field.len();
        counts.add_if(from < BUFFER && BUFFER < to, across_name(name));
        from = to + 1;
    }
}

/// Counts what was written of a sheet.
pub fn witness_tape(counts: &mut Counts, tape: &[u8]) {
    counts.add_if(tape.len() > BUFFER, "tape above 65,536 bytes");
}

/// Counts a sheet that ended well.
pub fn witness_sheet(counts: &mut Counts, sheet: &[u8]) {
    let lines = sheet.iter().filter(|byte| **byte == b'\n').count();
    counts.add(match lines {
        0 => "sheet of 0 bytes",
        1 => "sheet of one line",
        _ => "sheet of several lines",
    });
    counts.add_if(lines > 100, "sheet of more than 100 lines");
    counts.add_if(sheet.len() == BUFFER, "sheet of 65,536 bytes");
    counts.add_if(sheet.len() > BUFFER, "sheet above 65,536 bytes");
}
