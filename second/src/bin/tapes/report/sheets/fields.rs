//! The fields of a line, and whether each is right.

/// The fields from the left.
pub const NAMES: [&str; 6] = ["tenant", "side", "size", "kind", "price", "life"];

/// The places of some of them.
pub const TENANT: usize = 0;
pub const SIZE: usize = 2;
pub const KIND: usize = 3;
pub const PRICE: usize = 4;
pub const LIFE: usize = 5;

/// The words of the fields; numbers have none.
pub const WORDS: [&[&str]; 6] = [
    &[],
    &["BUY", "SELL"],
    &[],
    &["LMT", "MKT"],
    &[],
    &["DAY", "NOW"],
];

/// A refusal and the field whose it is, as an outcome is named by them.
pub fn refused(place: usize) -> String {
    let refusal = if WORDS[place].is_empty() { 44 } else { 43 };
    format!("sheet {refusal} {}", NAMES[place])
}

/// The fields of a line without its newline; a missing one is not there.
pub fn split(line: &[u8]) -> Vec<&[u8]> {
    line.splitn(NAMES.len(), |byte| *byte == b' ').collect()
}

/// The places of the wrong and the missing fields. After a wrong kind a price
/// is right if it would be after either.
pub fn wrong_places(fields: &[&[u8]]) -> Vec<usize> {
    let kind = fields.get(KIND).copied().unwrap_or_default();
    let right = |place: &usize| {
        let field = fields.get(*place);
        field.is_some_and(|field| is_right(*place, field, kind))
    };
    (0..NAMES.len()).filter(|place| !right(place)).collect()
}

/// Whether a line without its newline is an order.
pub fn is_order(line: &[u8]) -> bool {
    wrong_places(&split(line)).is_empty()
}

pub fn is_right(place: usize, field: &[u8], kind: &[u8]) -> bool {
    match place {
        TENANT => is_number(field, 1),
        SIZE => is_number(field, 6),
        PRICE => match kind {
            b"LMT" => is_price(field),
            b"MKT" => field == b"-",
            _ => is_price(field) || field == b"-",
        },
        _ => is_word(place, field),
    }
}

/// Whether one of the words of the field at this place.
pub fn is_word(place: usize, field: &[u8]) -> bool {
    WORDS[place].iter().any(|word| word.as_bytes() == field)
}

/// Whether one to so many digits.
fn is_number(field: &[u8], most: usize) -> bool {
    (1..=most).contains(&field.len()) && field.iter().all(u8::is_ascii_digit)
}

pub fn is_price(field: &[u8]) -> bool {
    let parts: Vec<&[u8]> = field.split(|byte| *byte == b'.').collect();
    match parts.as_slice() {
        [dollars, cents] => is_number(dollars, 5) && cents.len() == 2 && is_number(cents, 2),
        _ => false,
    }
}
