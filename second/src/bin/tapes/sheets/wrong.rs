//! Lines that are wrong, each in one way.

use super::faults::{self, Fault};
use super::orders::{any, limit, Field, Order, FIELDS};
use crate::dice::Dice;

/// How the lines of a kind are spelt, by chance.
type Spell = Box<dyn Fn(&mut Dice) -> Vec<u8>>;

/// A kind of wrong line, with its refusal.
pub struct Wrong {
    pub name: String,
    pub refusal: u32,
    spell: Spell,
}

impl Wrong {
    fn new(
        name: impl Into<String>,
        refusal: u32,
        spell: impl Fn(&mut Dice) -> Vec<u8> + 'static,
    ) -> Wrong {
        Wrong {
            name: name.into(),
            refusal,
            spell: Box::new(spell),
        }
    }

    /// The line without its newline.
    pub fn line(&self, dice: &mut Dice) -> Vec<u8> {
        (self.spell)(dice)
    }
}

/// Every wrong line there is.
pub fn all() -> Vec<Wrong> {
    let mut all = short();
    all.extend(too_long());
    all
}

/// Every wrong line that is not too long, so that a field of it is wrong.
pub fn short() -> Vec<Wrong> {
    [
        single_faults(),
        missing(),
        left_out(),
        spaces(),
        plain_lines(),
        several_faults(),
        just_not_too_long(),
    ]
    .into_iter()
    .flatten()
    .collect()
}

/// A line of which one field alone is wrong.
fn single_faults() -> Vec<Wrong> {
    let faults = FIELDS.into_iter().flat_map(faults::of);
    let faults = faults.chain(faults::crossed());
    faults
        .map(|fault| {
            Wrong::new(fault.name.clone(), fault.field.refusal(), move |dice| {
                let mut order = any(dice);
                fault.spoil(dice, &mut order);
                order.line()
            })
        })
        .collect()
}

/// A line that ends before a field, with or without the space before it.
fn missing() -> Vec<Wrong> {
    let without = FIELDS.map(|field| {
        let name = match field {
            Field::Tenant => "empty-line".to_string(),
            _ => format!("{}-missing", field.name()),
        };
        Wrong::new(name, field.refusal(), move |dice| any(dice).before(field))
    });
    let with = [Field::Side, Field::Size, Field::Kind, Field::Price].map(|field| {
        let name = format!("cut-before-{}", field.name());
        Wrong::new(name, field.refusal(), move |dice| {
            [any(dice).before(field), b" ".to_vec()].concat()
        })
    });
    without.into_iter().chain(with).collect()
}

/// A field left out, so that each behind it stands where another is due.
fn left_out() -> Vec<Wrong> {
    let left_out = |field: &Field| {
        let field = *field;
        let name = format!("{}-left-out", field.name());
        Wrong::new(name, field.refusal(), move |dice| {
            let mut fields = any(dice).fields.to_vec();
            fields.remove(field.place());
            fields.join(&b' ')
        })
    };
    FIELDS[..5].iter().map(left_out).collect()
}

/// Spaces too many, and a space too few.
fn spaces() -> Vec<Wrong> {
    let two = |field: &Field| {
        let field = *field;
        let name = format!("two-spaces-before-{}", field.name());
        Wrong::new(name, field.refusal(), move |dice| {
            let mut order = any(dice);
            let padded = [b" ", order.field(field)].concat();
            order.set(field, padded);
            order.line()
        })
    };
    let glued = |field: &Field| {
        let field = *field;
        let name = format!("{}-glued", field.name());
        Wrong::new(name, field.refusal(), move |dice| {
            let mut fields = any(dice).fields.to_vec();
            let next = fields.remove(field.place() + 1);
            fields[field.place()].extend(next);
            fields.join(&b' ')
        })
    };
    let mut all: Vec<Wrong> = FIELDS[1..].iter().map(two).collect();
    all.extend(FIELDS[..5].iter().map(glued));
    all.extend(AROUND.map(|(name, refusal, before, behind)| {
        Wrong::new(name, refusal, move |dice| {
            [before, &any(dice).line(), behind].concat()
        })
    }));
    all
}

/// What may stand before a right line and behind it, and the refusal.
const AROUND: [(&str, u32, &[u8], &[u8]); 7] = [
    ("space-before", 44, b" ", b""),
    ("byte-order-mark", 44, &[0xef, 0xbb, 0xbf], b""),
    ("space-behind", 43, b"", b" "),
    ("spaces-behind", 43, b"", b"   "),
    ("return-behind", 43, b"", b"\r"),
    ("seventh-word", 43, b"", b" DAY"),
    ("remark-behind", 43, b"", b" # late"),
];

/// Lines that need no chance, and their refusals.
const PLAIN: [(&str, u32, &[u8]); 10] = [
    ("one-space", 44, b" "),
    ("sixty-four-spaces", 44, &[b' '; 64]),
    ("remark-alone", 44, b"# the morning's orders"),
    ("commas", 44, b"3,BUY,5,LMT,1.05,DAY"),
    ("tabs", 44, b"3\tBUY\t5\tLMT\t1.05\tDAY"),
    (
        "no-break-spaces",
        44,
        b"3\xa0BUY\xa05\xa0LMT\xa01.05\xa0DAY",
    ),
    ("tape-figures", 43, b"3 3 1 1 1 1 105 5 0"),
    ("cancel", 43, b"3 CANCEL 17"),
    ("lower-line", 43, b"3 buy 5 lmt 1.05 day"),
    ("lone-return", 44, b"\r"),
];

fn plain_lines() -> Vec<Wrong> {
    let wrong = |(name, refusal, line): (&str, u32, &'static [u8])| {
        Wrong::new(name, refusal, move |_| line.to_vec())
    };
    PLAIN.into_iter().map(wrong).collect()
}

/// One of the faults of a field.
fn any_fault(dice: &mut Dice, mut faults: Vec<Fault>) -> Fault {
    faults.swap_remove(dice.roll() as usize % faults.len())
}

/// An order with these fields wrong, the rightmost spoilt first: what is done
/// to a price makes the kind before it right.
pub fn spoilt(dice: &mut Dice, fields: &[Field]) -> Order {
    let mut order = any(dice);
    for field in fields.iter().rev() {
        let fault = any_fault(dice, faults::of(*field));
        fault.spoil(dice, &mut order);
    }
    order
}

/// Lines of which the leftmost wrong field counts.
fn several_faults() -> Vec<Wrong> {
    let mut all = Vec::new();
    for (place, first) in FIELDS.into_iter().enumerate() {
        let (name, refusal) = (first.name(), first.refusal());
        for second in &FIELDS[place + 1..] {
            let both = [first, *second];
            let name = format!("both-{name}-{}", second.name());
            let spell = move |dice: &mut Dice| spoilt(dice, &both).line();
            all.push(Wrong::new(name, refusal, spell));
        }
    }
    for (place, first) in FIELDS.into_iter().enumerate().take(4) {
        let name = format!("all-from-{}", first.name());
        let spell = move |dice: &mut Dice| spoilt(dice, &FIELDS[place..]).line();
        all.push(Wrong::new(name, first.refusal(), spell));
    }
    for last in FIELDS.into_iter().take(5) {
        let name = format!("{}-last-and-wrong", last.name());
        all.push(Wrong::new(name, last.refusal(), move |dice| {
            let mut order = any(dice);
            any_fault(dice, faults::strays(last)).spoil(dice, &mut order);
            order.fields[..=last.place()].join(&b' ')
        }));
    }
    all
}

/// Lines of 63 and 64 bytes, by the field that makes them long.
fn just_not_too_long() -> Vec<Wrong> {
    let mut all = Vec::new();
    for length in [63, 64] {
        for field in FIELDS {
            let name = format!("length-{length}-{}", field.name());
            let spell = move |dice: &mut Dice| stretched(dice, field, length);
            all.push(Wrong::new(name, field.refusal(), spell));
        }
    }
    all
}

/// A right line but for one field that makes it so many bytes long: digits
/// have zeros before them and words have letters or spaces behind.
pub fn stretched(dice: &mut Dice, field: Field, length: usize) -> Vec<u8> {
    let mut order = limit(dice);
    let more = vec![filler(dice, field); length.saturating_sub(order.line().len())];
    let right = order.field(field);
    let long = match field {
        Field::Tenant | Field::Size | Field::Price => [&more, right].concat(),
        Field::Side | Field::Kind | Field::Life => [right, &more].concat(),
    };
    order.set(field, long);
    order.line()
}

fn filler(dice: &mut Dice, field: Field) -> u8 {
    match field {
        Field::Tenant | Field::Size | Field::Price => b'0',
        Field::Side | Field::Kind => dice.pick(b"SLTYX"),
        Field::Life => dice.pick(b" SYWX"),
    }
}

/// More bytes than a buffer of 65,536 holds.
pub const VERY_LONG: usize = 100_000;

/// Lines that are too long, whatever their fields are.
pub fn too_long() -> Vec<Wrong> {
    let just = FIELDS.map(|field| {
        let name = format!("length-65-{}", field.name());
        Wrong::new(name, 42, move |dice| stretched(dice, field, 65))
    });
    let others = [
        Wrong::new("length-66-fields", 42, |dice| {
            let field = dice.pick(&FIELDS);
            stretched(dice, field, 66)
        }),
        Wrong::new("length-66-noise", 42, |dice| noise(dice, 66)),
        // Where 65 bytes of it are passed over, an order follows.
        Wrong::new("length-65-and-order", 42, |dice| {
            [stretched(dice, Field::Life, 65), any(dice).line()].concat()
        }),
        Wrong::new("orders-in-a-line", 42, |dice| {
            let orders = (0..dice.within(4..=9)).map(|_| any(dice).line());
            orders.collect::<Vec<_>>().join(&b' ')
        }),
        Wrong::new("length-hundreds", 42, |dice| {
            let length = dice.within(100..=999) as usize;
            noise(dice, length)
        }),
        Wrong::new("length-very-long", 42, |dice| {
            let field = dice.pick(&FIELDS);
            let length = VERY_LONG + dice.within(0..=999) as usize;
            stretched(dice, field, length)
        }),
    ];
    just.into_iter().chain(others).collect()
}

/// So many bytes by chance, none of them a newline.
pub fn noise(dice: &mut Dice, length: usize) -> Vec<u8> {
    let byte = |dice: &mut Dice| (dice.roll() >> 32) as u8;
    std::iter::repeat_with(|| byte(dice))
        .filter(|byte| *byte != b'\n')
        .take(length)
        .collect()
}
