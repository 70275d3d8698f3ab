//! What is wrong in a field that is there and not empty.

use super::fields::{is_price, is_word, PRICE, SIZE, TENANT, WORDS};

const STRAYS: [&str; 5] = [
    "with a sign",
    "with a tab",
    "with a NUL",
    "with a byte above 127",
    "with another mark",
];

const IN_WORDS: [&str; 6] = [
    "in lower case",
    "in mixed case",
    "with a letter more",
    "with a letter less",
    "with another letter",
    "as another field's word",
];

const IN_TENANTS: [&str; 4] = [
    "of two digits",
    "of two digits, 0 first",
    "as a letter",
    "as another field's word",
];

const IN_SIZES: [&str; 6] = [
    "of seven digits",
    "of seven digits, 0 first",
    "of more digits",
    "with a letter",
    "with a point",
    "as another field's word",
];

const IN_PRICES: [&str; 18] = [
    "without a point",
    "without a decimal",
    "with one decimal",
    "with three decimals",
    "with six digits before the point",
    "with six digits before the point, 0 first",
    "with more digits before the point",
    "without a digit before the point",
    "as a point alone",
    "with a comma for the point",
    "with two points",
    "with a letter",
    "as another field's word",
    "as a dash after LMT",
    "as a price after MKT",
    "as two dashes after MKT",
    "as a dash and more after MKT",
    "as 0 after MKT",
];

/// What may be wrong in the field at this place.
pub fn names(place: usize) -> Vec<&'static str> {
    let own: &[&str] = match place {
        TENANT => &IN_TENANTS,
        SIZE => &IN_SIZES,
        PRICE => &IN_PRICES,
        _ => &IN_WORDS,
    };
    [own, &STRAYS].concat()
}

/// What is wrong in a field, where it is one of these ways.
pub fn of(place: usize, field: &[u8], kind: &[u8]) -> Option<&'static str> {
    let others_word = (0..WORDS.len()).any(|other| is_word(other, field));
    let own = match place {
        _ if others_word => Some("as another field's word"),
        TENANT => in_tenant(field),
        SIZE => in_size(field),
        PRICE => in_price(field, kind),
        _ => in_word(WORDS[place], field),
    };
    own.or_else(|| stray(field))
}

/// A stray byte; a dash only where there is no other, since a price may be one.
fn stray(field: &[u8]) -> Option<&'static str> {
    let plain = |byte: &u8| byte.is_ascii_alphanumeric() || b". -".contains(byte);
    let other = field.iter().find(|byte| !plain(byte));
    let stray = other.or_else(|| field.iter().find(|byte| **byte == b'-'))?;
    Some(
        STRAYS[match stray {
            b'+' | b'-' => 0,
            b'\t' => 1,
            0 => 2,
            0x80.. => 3,
            _ => 4,
        }],
    )
}

fn in_word(words: &[&str], field: &[u8]) -> Option<&'static str> {
    let any = |is: &dyn Fn(&[u8]) -> bool| words.iter().any(|word| is(word.as_bytes()));
    if any(&|word| word.eq_ignore_ascii_case(field)) {
        let lower = field.iter().all(u8::is_ascii_lowercase);
        return Some(IN_WORDS[usize::from(!lower)]);
    }
    if !field.iter().all(u8::is_ascii_uppercase) {
        return None;
    }
    if any(&|word| one_less(field, word)) {
        Some("with a letter more")
    } else if any(&|word| one_less(word, field)) {
        Some("with a letter less")
    } else if any(&|word| one_apart(word, field)) {
        Some("with another letter")
    } else {
        None
    }
}

/// Whether a letter of the one taken out leaves the other.
fn one_less(one: &[u8], other: &[u8]) -> bool {
    (0..one.len()).any(|place| [&one[..place], &one[place + 1..]].concat() == other)
}

/// Whether both are of one length and differ in one letter.
fn one_apart(one: &[u8], other: &[u8]) -> bool {
    let apart = one.iter().zip(other).filter(|(one, other)| one != other);
    one.len() == other.len() && apart.count() == 1
}

fn all_digits(field: &[u8]) -> bool {
    field.iter().all(u8::is_ascii_digit)
}

/// Whether made of digits, points and letters, one letter at least.
fn has_letter(field: &[u8]) -> bool {
    let plain = |byte: &u8| byte.is_ascii_alphanumeric() || *byte == b'.';
    field.iter().all(plain) && field.iter().any(u8::is_ascii_alphabetic)
}

fn in_tenant(field: &[u8]) -> Option<&'static str> {
    match field {
        [b'0', digit] if digit.is_ascii_digit() => Some("of two digits, 0 first"),
        [_, _] if all_digits(field) => Some("of two digits"),
        [letter] if letter.is_ascii_alphabetic() => Some("as a letter"),
        _ => None,
    }
}

fn in_size(field: &[u8]) -> Option<&'static str> {
    match field {
        [b'0', ..] if all_digits(field) && field.len() == 7 => Some("of seven digits, 0 first"),
        _ if all_digits(field) && field.len() == 7 => Some("of seven digits"),
        _ if all_digits(field) => Some("of more digits"),
        _ if is_price(field) => Some("with a point"),
        _ if has_letter(field) => Some("with a letter"),
        _ => None,
    }
}

fn in_price(field: &[u8], kind: &[u8]) -> Option<&'static str> {
    match (kind, field) {
        (b"LMT", b"-") => Some("as a dash after LMT"),
        (b"LMT", _) => in_limit(field),
        (b"MKT", b"--") => Some("as two dashes after MKT"),
        (b"MKT", b"0") => Some("as 0 after MKT"),
        (b"MKT", [b'-', more @ ..]) if is_price(more) => Some("as a dash and more after MKT"),
        (b"MKT", _) if is_price(field) => Some("as a price after MKT"),
        _ => None,
    }
}

fn in_limit(field: &[u8]) -> Option<&'static str> {
    let parts: Vec<&[u8]> = field.split(|byte| *byte == b'.').collect();
    if has_letter(field) {
        return Some("with a letter");
    }
    match parts.as_slice() {
        [b"", b""] => Some("as a point alone"),
        [digits] if all_digits(digits) => Some("without a point"),
        [_] if is_price(&with_point(field)) => Some("with a comma for the point"),
        [dollars, cents] if all_digits(dollars) && all_digits(cents) => beside(dollars, cents),
        [_, _, _] => Some("with two points"),
        _ => None,
    }
}

fn with_point(field: &[u8]) -> Vec<u8> {
    let point = |byte: &u8| if *byte == b',' { b'.' } else { *byte };
    field.iter().map(point).collect()
}

/// What is wrong in digits around a point.
fn beside(dollars: &[u8], cents: &[u8]) -> Option<&'static str> {
    match (dollars.len(), cents.len()) {
        (0, 2) => Some("without a digit before the point"),
        (_, 0) => Some("without a decimal"),
        (_, 1) => Some("with one decimal"),
        (_, 3) => Some("with three decimals"),
        (6, _) if dollars[0] == b'0' => Some("with six digits before the point, 0 first"),
        (6, _) => Some("with six digits before the point"),
        (7.., _) => Some("with more digits before the point"),
        _ => None,
    }
}
