//! Whole sheets: right ones, and wrong ones by where their wrong line stands.

use std::ops::RangeInclusive;

use super::orders::{
    any, digits, limit, market, of_length, price, Field, Order, FIELDS, LONGEST, SHORTEST,
};
use super::wrong::{self, noise, stretched, Wrong, VERY_LONG};
use super::{Ending, Sheet, Way};
use crate::dice::Dice;

/// As many bytes as a program may well read at a time.
const BUFFER: usize = 65_536;

/// All sheets but those of a single wrong line among a few right ones and those
/// that chance spoils.
pub fn all() -> Vec<Way> {
    [
        right(),
        long(),
        misplaced(),
        one_before_another(),
        far_down(),
        unended(),
        at_the_buffer(),
    ]
    .into_iter()
    .flatten()
    .collect()
}

/// A few right lines with this wrong one among them or, the next time round,
/// behind them.
pub fn around(wrong: Wrong) -> Way {
    Way::new(wrong.name.clone(), move |dice, odd| {
        let mut sheet = Sheet::default();
        some(&mut sheet, dice, 1..=6);
        sheet.wrong(wrong.refusal, &wrong.line(dice));
        if odd {
            some(&mut sheet, dice, 1..=6);
        }
        sheet
    })
}

/// A way whose sheets are the same kind each time round.
fn way(name: impl Into<String>, write: impl Fn(&mut Sheet, &mut Dice) + 'static) -> Way {
    Way::new(name, move |dice, _| {
        let mut sheet = Sheet::default();
        write(&mut sheet, dice);
        sheet
    })
}

/// Some right lines.
fn some(sheet: &mut Sheet, dice: &mut Dice, lines: RangeInclusive<u32>) {
    for _ in 0..dice.within(lines) {
        sheet.order(&any(dice));
    }
}

/// Some wrong line that is not too long.
fn some_wrong(sheet: &mut Sheet, dice: &mut Dice) {
    some_refused(sheet, dice, wrong::short());
}

fn some_refused(sheet: &mut Sheet, dice: &mut Dice, lines: Vec<Wrong>) {
    let wrong = &lines[dice.roll() as usize % lines.len()];
    sheet.wrong(wrong.refusal, &wrong.line(dice));
}

/// Right lines up to this length exactly.
fn filled(sheet: &mut Sheet, dice: &mut Dice, length: usize) {
    while sheet.bytes.len() + 100 < length {
        sheet.order(&any(dice));
    }
    // What is left is three lines or four of about one length.
    while sheet.bytes.len() < length {
        let left = length - sheet.bytes.len();
        let lines = left.div_ceil(LONGEST);
        sheet.order(&of_length(dice, left / lines));
    }
}

fn right() -> Vec<Way> {
    vec![
        way("no-bytes", |_, _| {}),
        way("shortest", |sheet, dice| {
            sheet.order(&of_length(dice, SHORTEST));
        }),
        way("longest", |sheet, dice| {
            sheet.order(&of_length(dice, LONGEST));
        }),
        way("several", |sheet, dice| some(sheet, dice, 10..=40)),
        way("many", |sheet, dice| some(sheet, dice, 400..=900)),
        way("forms", |sheet, dice| {
            for (kind, side, life) in forms(dice) {
                let order = kind(dice).with(Field::Side, side).with(Field::Life, life);
                sheet.order(&order);
            }
        }),
        way("tenants", |sheet, dice| {
            for tenant in 0..=9 {
                sheet.order(&any(dice).with(Field::Tenant, tenant.to_string()));
            }
        }),
        way("sizes", |sheet, dice| {
            for length in 1..=6 {
                for size in at_length(dice, length) {
                    sheet.order(&any(dice).with(Field::Size, size));
                }
            }
        }),
        way("prices", |sheet, dice| {
            for length in 1..=5 {
                for zero in [true, false] {
                    let price = price(dice, length, zero);
                    sheet.order(&limit(dice).with(Field::Price, price));
                }
            }
        }),
        way("price-edges", |sheet, dice| {
            for price in PRICE_EDGES {
                sheet.order(&limit(dice).with(Field::Price, price));
            }
        }),
    ]
}

/// A kind of order with side and life.
type Form = (fn(&mut Dice) -> Order, &'static str, &'static str);

/// Every kind, side and life, in some order.
fn forms(dice: &mut Dice) -> Vec<Form> {
    let kinds: [fn(&mut Dice) -> Order; 2] = [limit, market];
    let mut forms = Vec::new();
    for kind in kinds {
        for side in Field::Side.words() {
            for life in Field::Life.words() {
                forms.push((kind, *side, *life));
            }
        }
    }
    dice.shuffle(&mut forms);
    forms
}

/// Sizes of so many digits: zeros alone, the least and the greatest, and others
/// with a zero first and without.
fn at_length(dice: &mut Dice, length: usize) -> [String; 5] {
    [
        "0".repeat(length),
        format!("{:0<length$}", 1),
        "9".repeat(length),
        digits(dice, length, true),
        digits(dice, length, false),
    ]
}

/// Prices at the ends of what is asked for, of what submit takes and of what is
/// read.
const PRICE_EDGES: [&str; 12] = [
    "0.00", "0.01", "0.05", "0.99", "1.00", "2.99", "3.00", "9.99", "9999.99", "10000.00",
    "10000.01", "99999.99",
];

/// Right sheets longer than a buffer, and right sheets that fit one just so.
fn long() -> Vec<Way> {
    let mut long = vec![
        way("long", |sheet, dice| {
            let length = BUFFER + dice.within(1_000..=9_000) as usize;
            filled(sheet, dice, length);
        }),
        way("buffer-ends-with-sheet", |sheet, dice| {
            filled(sheet, dice, BUFFER);
        }),
        way("buffer-ends-with-line", |sheet, dice| {
            filled(sheet, dice, BUFFER);
            some(sheet, dice, 1..=6);
        }),
        way("buffer-ends-before-newline", |sheet, dice| {
            filled(sheet, dice, BUFFER + 1);
            some(sheet, dice, 1..=6);
        }),
    ];
    // A tenant is one byte.
    long.extend(FIELDS[1..].iter().map(|field| {
        let (field, name) = (*field, format!("buffer-ends-in-{}", field.name()));
        way(name, move |sheet, dice| {
            let order = of_length(dice, LONGEST);
            filled(sheet, dice, BUFFER - order.before(field).len() - 2);
            sheet.order(&order);
            some(sheet, dice, 1..=6);
        })
    }));
    long
}

/// A wrong line in a special place.
fn misplaced() -> Vec<Way> {
    vec![
        way("newline", |sheet, _| sheet.wrong(44, b"")),
        way("newlines", |sheet, dice| {
            (0..dice.within(2..=9)).for_each(|_| sheet.wrong(44, b""));
        }),
        way("returns", |sheet, dice| {
            for _ in 0..dice.within(2..=9) {
                sheet.wrong(43, &[any(dice).line(), b"\r".to_vec()].concat());
            }
        }),
        way("wrong-only", some_wrong),
        way("wrong-first", |sheet, dice| {
            some_wrong(sheet, dice);
            some(sheet, dice, 2..=9);
        }),
        way("too-long-only", |sheet, dice| {
            sheet.wrong(42, &noise(dice, 65));
        }),
    ]
}

/// A refused line before one that would be refused otherwise.
fn one_before_another() -> Vec<Way> {
    let mut all = Vec::new();
    for first in 42..=44 {
        for second in 42..=45 {
            let name = format!("{first}-before-{second}");
            all.push(way(name, move |sheet, dice| {
                some(sheet, dice, 1..=4);
                refused_by(sheet, dice, first);
                some(sheet, dice, 0..=4);
                refused_by(sheet, dice, second);
            }));
        }
    }
    all
}

/// A line to be refused by this number, which for 45 is a last one.
fn refused_by(sheet: &mut Sheet, dice: &mut Dice, refusal: u32) {
    match refusal {
        42 => sheet.wrong(42, &noise(dice, 70)),
        45 => sheet.unended(45, &any(dice).line()),
        _ => {
            let mut lines = wrong::short();
            lines.retain(|wrong| wrong.refusal == refusal);
            some_refused(sheet, dice, lines);
        }
    }
}

/// A wrong line whose number has several figures.
fn far_down() -> Vec<Way> {
    [
        ("line-tens", 10..=99),
        ("line-hundreds", 100..=999),
        ("line-thousands", 1_000..=2_000),
        ("line-ten-thousands", 10_000..=11_000),
    ]
    .map(|(name, lines)| {
        way(name, move |sheet, dice| {
            let order = of_length(dice, SHORTEST);
            for _ in 1..dice.within(lines.clone()) {
                let tenant = dice.within(0..=9).to_string();
                sheet.order(&order.clone().with(Field::Tenant, tenant));
            }
            some_wrong(sheet, dice);
            some(sheet, dice, 1..=6);
        })
    })
    .into_iter()
    .collect()
}

/// How a last line is spelt, by chance.
type Spell = fn(&mut Dice) -> Vec<u8>;

/// Last lines without their newline, and their refusals.
const UNENDED: [(&str, u32, Spell); 10] = [
    ("limit", 45, |dice| limit(dice).line()),
    ("market", 45, |dice| market(dice).line()),
    ("return", 45, |_| b"\r".to_vec()),
    ("length-1", 45, |dice| noise(dice, 1)),
    ("length-63", 45, |dice| stretched_by_chance(dice, 63)),
    ("length-64", 45, |dice| stretched_by_chance(dice, 64)),
    ("length-65", 42, |dice| stretched_by_chance(dice, 65)),
    ("length-66", 42, |dice| stretched_by_chance(dice, 66)),
    ("length-hundreds", 42, |dice| {
        let length = dice.within(100..=999) as usize;
        noise(dice, length)
    }),
    ("length-very-long", 42, |dice| {
        let length = VERY_LONG + dice.within(0..=999) as usize;
        noise(dice, length)
    }),
];

fn unended() -> Vec<Way> {
    let listed = UNENDED.map(|(name, refusal, spell)| {
        way(format!("unended-{name}"), move |sheet, dice| {
            some(sheet, dice, 1..=6);
            sheet.unended(refusal, &spell(dice));
        })
    });
    let wrong = FIELDS.map(|field| {
        let name = format!("unended-wrong-{}", field.name());
        way(name, move |sheet, dice| {
            some(sheet, dice, 1..=6);
            sheet.unended(45, &wrong::spoilt(dice, &[field]).line());
        })
    });
    let only = way("unended-only", |sheet, dice| {
        sheet.unended(45, &any(dice).line());
    });
    listed.into_iter().chain(wrong).chain([only]).collect()
}

fn stretched_by_chance(dice: &mut Dice, length: usize) -> Vec<u8> {
    let field = dice.pick(&FIELDS);
    stretched(dice, field, length)
}

/// A refused line behind a buffer's worth of right ones, or across its end.
fn at_the_buffer() -> Vec<Way> {
    vec![
        way("wrong-behind-buffer", |sheet, dice| {
            filled(sheet, dice, BUFFER);
            some_wrong(sheet, dice);
            some(sheet, dice, 1..=6);
        }),
        way("wrong-across-buffer", |sheet, dice| {
            // The order is right as far as the buffer goes.
            let line = [of_length(dice, LONGEST).line(), b"S".to_vec()].concat();
            filled(sheet, dice, BUFFER + 1 - line.len());
            sheet.wrong(43, &line);
            some(sheet, dice, 1..=6);
        }),
        way("wrong-last-of-long", |sheet, dice| {
            let length = BUFFER + dice.within(1_000..=9_000) as usize;
            filled(sheet, dice, length);
            some_wrong(sheet, dice);
        }),
        way("unended-at-buffer", |sheet, dice| {
            let line = any(dice).line();
            filled(sheet, dice, BUFFER - line.len());
            sheet.unended(45, &line);
        }),
        way("unended-across-buffer", |sheet, dice| {
            let line = any(dice).line();
            filled(sheet, dice, BUFFER - line.len() / 2);
            sheet.unended(45, &line);
        }),
        way("unended-behind-buffer", |sheet, dice| {
            filled(sheet, dice, BUFFER);
            sheet.unended(45, &any(dice).line());
        }),
        way("length-64-at-buffer", |sheet, dice| {
            filled(sheet, dice, BUFFER - 64);
            sheet.wrong(44, &stretched(dice, Field::Size, 64));
            some(sheet, dice, 1..=6);
        }),
        way("length-65-at-buffer", |sheet, dice| {
            filled(sheet, dice, BUFFER - 65);
            sheet.wrong(42, &stretched(dice, Field::Size, 65));
            some(sheet, dice, 1..=6);
        }),
        way("length-65-across-buffer", |sheet, dice| {
            filled(sheet, dice, BUFFER - 64);
            sheet.wrong(42, &stretched(dice, Field::Size, 65));
            some(sheet, dice, 1..=6);
        }),
    ]
}

/// What chance does to one byte of a right sheet.
type Damage = fn(&mut Dice, &mut Vec<u8>, usize);

const DAMAGES: [(&str, Damage); 4] = [
    ("changed", |dice, bytes, place| {
        bytes[place] = any_byte(dice);
    }),
    ("dropped", |_, bytes, place| {
        bytes.remove(place);
    }),
    ("doubled", |_, bytes, place| {
        bytes.insert(place, bytes[place]);
    }),
    ("inserted", |dice, bytes, place| {
        let byte = any_byte(dice);
        bytes.insert(place, byte);
    }),
];

/// The bytes of which right sheets are made.
const SIGNS: &[u8] = b"0123456789 .-\nBUYSELMTKDANOW";

/// Any byte, mostly one of a right sheet.
fn any_byte(dice: &mut Dice) -> u8 {
    if dice.chance(70) {
        dice.pick(SIGNS)
    } else {
        (dice.roll() >> 32) as u8
    }
}

/// Sheets whose ending nobody knows beforehand: damaged ones and such of chance
/// alone.
pub fn by_chance() -> Vec<Way> {
    let damaged = DAMAGES.into_iter().flat_map(|(name, damage)| {
        [("early", 0), ("late", 1)].map(|(half_name, half)| {
            unknown(format!("{name}-{half_name}"), move |dice| {
                let mut sheet = Sheet::default();
                some(&mut sheet, dice, 1..=12);
                let length = sheet.bytes.len();
                let place = (half * length + dice.roll() as usize % length) / 2;
                damage(dice, &mut sheet.bytes, place);
                sheet.bytes
            })
        })
    });
    let others = [
        unknown("chance-cut".to_string(), |dice| {
            let mut sheet = Sheet::default();
            some(&mut sheet, dice, 1..=12);
            let length = dice.roll() as usize % sheet.bytes.len();
            sheet.bytes.truncate(length);
            sheet.bytes
        }),
        unknown("chance-bytes".to_string(), |dice| {
            let length = dice.within(1..=300);
            (0..length).map(|_| (dice.roll() >> 32) as u8).collect()
        }),
        unknown("chance-signs".to_string(), |dice| {
            let length = dice.within(1..=300);
            (0..length).map(|_| dice.pick(SIGNS)).collect()
        }),
        unknown("chance-fields".to_string(), |dice| {
            let lines = (0..dice.within(5..=20)).map(|_| chance_line(dice));
            lines.collect::<Vec<_>>().concat()
        }),
    ];
    damaged.chain(others).collect()
}

fn unknown(name: String, bytes: impl Fn(&mut Dice) -> Vec<u8> + 'static) -> Way {
    Way::new(name, move |dice, _| Sheet {
        bytes: bytes(dice),
        lines: 0,
        ending: Ending::Unknown,
    })
}

/// A line whose fields are mostly right, each where it is due or, seldom, that
/// of another order or another place.
fn chance_line(dice: &mut Dice) -> Vec<u8> {
    let mut order = any(dice);
    if dice.chance(15) {
        let field = dice.pick(&FIELDS);
        let other = any(dice).field(dice.pick(&FIELDS)).to_vec();
        order.set(field, other);
    }
    [order.line(), b"\n".to_vec()].concat()
}
