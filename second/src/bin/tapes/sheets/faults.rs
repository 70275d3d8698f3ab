//! Faults in one field, the other fields of the line left right. No fault is so
//! long that a line of many would be too long for it.

use super::orders::{digits, price, Field, Order};
use crate::dice::Dice;

/// How a field is spoilt, by chance.
type Spoil = Box<dyn Fn(&mut Dice, &mut Order)>;

/// A way for a field to be wrong.
pub struct Fault {
    pub name: String,
    pub field: Field,
    spoil: Spoil,
}

impl Fault {
    fn new(name: &str, field: Field, spoil: impl Fn(&mut Dice, &mut Order) + 'static) -> Fault {
        Fault {
            name: format!("{}-{name}", field.name()),
            field,
            spoil: Box::new(spoil),
        }
    }

    /// Another field in place of the right one, whatever the order is.
    fn given(
        name: &str,
        field: Field,
        spelt: impl Fn(&mut Dice, &[u8]) -> Vec<u8> + 'static,
    ) -> Fault {
        Fault::new(name, field, move |dice, order| {
            let wrong = spelt(dice, order.field(field));
            order.set(field, wrong);
        })
    }

    /// Makes the field of an order wrong.
    pub fn spoil(&self, dice: &mut Dice, order: &mut Order) {
        (self.spoil)(dice, order);
    }
}

/// Every fault that a field has by itself.
pub fn of(field: Field) -> Vec<Fault> {
    let mut faults = match field {
        Field::Tenant => tenants(),
        Field::Size => sizes(),
        Field::Price => prices(),
        Field::Side | Field::Kind | Field::Life => words(field),
    };
    faults.extend(strays(field));
    faults
}

/// The words of the other fields.
fn other_words(field: Field) -> Vec<&'static str> {
    let others = [Field::Side, Field::Kind, Field::Life];
    let others = others.into_iter().filter(|other| *other != field);
    others.flat_map(Field::words).copied().collect()
}

fn any_other_word(dice: &mut Dice, field: Field) -> Vec<u8> {
    dice.pick(&other_words(field)).as_bytes().to_vec()
}

fn any_letter(dice: &mut Dice) -> u8 {
    dice.pick(b"ABCDEFGHIJKLMNOPQRSTUVWXYZ")
}

fn any_place(dice: &mut Dice, length: usize) -> usize {
    dice.roll() as usize % length
}

/// The field with a byte put in somewhere.
fn with_byte(dice: &mut Dice, field: &[u8], byte: u8) -> Vec<u8> {
    let mut field = field.to_vec();
    field.insert(any_place(dice, field.len() + 1), byte);
    field
}

fn words(field: Field) -> Vec<Fault> {
    vec![
        Fault::given("empty", field, |_, _| Vec::new()),
        Fault::given("lower", field, |_, word| word.to_ascii_lowercase()),
        Fault::given("mixed", field, |dice, word| {
            let mut word = word.to_vec();
            let lower = dice.within(1..=(1 << word.len()) - 2);
            for (place, letter) in word.iter_mut().enumerate() {
                if lower >> place & 1 == 1 {
                    letter.make_ascii_lowercase();
                }
            }
            word
        }),
        Fault::given("letter-more", field, |dice, word| {
            let letter = any_letter(dice);
            with_byte(dice, word, letter)
        }),
        Fault::given("letter-less", field, |dice, word| {
            let mut word = word.to_vec();
            word.remove(any_place(dice, word.len()));
            word
        }),
        Fault::given("letter-other", field, |dice, word| {
            let mut word = word.to_vec();
            let place = any_place(dice, word.len());
            // The next letter but some, and never the same.
            word[place] = b'A' + (word[place] - b'A' + dice.pick(&[1, 2, 5, 24, 25])) % 26;
            word
        }),
        Fault::given("other-word", field, move |dice, _| {
            any_other_word(dice, field)
        }),
    ]
}

fn tenants() -> Vec<Fault> {
    let field = Field::Tenant;
    vec![
        Fault::given("empty", field, |_, _| Vec::new()),
        Fault::given("two-digits", field, |dice, _| {
            digits(dice, 2, false).into_bytes()
        }),
        Fault::given("zero-before", field, |_, tenant| [b"0", tenant].concat()),
        Fault::given("letter", field, |dice, _| vec![dice.pick(b"ABDEFNOSlox")]),
        Fault::given("wide", field, |dice, _| {
            let digits = ["\u{ff11}", "\u{661}", "\u{b9}"];
            dice.pick(&digits).as_bytes().to_vec()
        }),
    ]
}

fn sizes() -> Vec<Fault> {
    let field = Field::Size;
    vec![
        Fault::given("empty", field, |_, _| Vec::new()),
        Fault::given("seven-digits", field, |dice, _| {
            digits(dice, 7, false).into_bytes()
        }),
        Fault::given("seven-zero-first", field, |dice, _| {
            let most = dice.pick(&[9, 999_999]);
            format!("{:07}", dice.within(0..=most)).into_bytes()
        }),
        // Some would be right in 32 or 64 bits.
        Fault::given("many-digits", field, |dice, _| {
            let size = u128::from(dice.within(1..=999_999));
            match dice.within(0..=2) {
                0 => (size + (1 << 32)).to_string().into_bytes(),
                1 => (size + (1 << 64)).to_string().into_bytes(),
                _ => {
                    let length = dice.within(8..=20) as usize;
                    digits(dice, length, false).into_bytes()
                }
            }
        }),
        Fault::given("letter", field, |dice, size| {
            let letter = dice.pick(b"eEOlkMx");
            with_byte(dice, size, letter)
        }),
        Fault::given("point", field, |dice, _| price(dice, 1, false).into_bytes()),
    ]
}

/// What may stand in place of a limit's price.
type Spelling = fn(&mut Dice) -> String;

const PRICES: [(&str, Spelling); 13] = [
    ("no-point", |dice| digits(dice, 3, false)),
    ("no-decimals", |dice| digits(dice, 1, false) + "."),
    ("one-decimal", |dice| {
        format!("{}.{}", digits(dice, 2, false), dice.within(0..=9))
    }),
    ("three-decimals", |dice| price(dice, 1, false) + "0"),
    ("six-digits", |dice| price(dice, 6, false)),
    ("six-zero-first", |dice| price(dice, 6, true)),
    // Some would be right in 32 bits.
    ("many-digits", |dice| match dice.within(0..=1) {
        0 => format!(
            "429496{}.{:02}",
            73 + dice.within(1..=26),
            dice.within(0..=99)
        ),
        _ => {
            let length = dice.within(8..=15) as usize;
            price(dice, length, false)
        }
    }),
    ("no-digit-before", |dice| {
        format!(".{:02}", dice.within(0..=99))
    }),
    ("point-alone", |_| ".".to_string()),
    ("comma", |dice| price(dice, 2, false).replace('.', ",")),
    ("two-points", |dice| {
        let places = ["1..05", "1.0.5", "1.05.", ".1.05", "12.3.45"];
        dice.pick(&places).to_string()
    }),
    ("sign", |dice| {
        let price = price(dice, 2, false);
        let (front, rest) = price.split_at(dice.pick(&[0, 0, 1, 2, 3, 5]));
        [front, dice.pick(&["+", "-"]), rest].concat()
    }),
    ("letter", |dice| {
        let price = price(dice, 3, false);
        let place = dice.pick(&[0, 1, 4, 5]);
        let letter = dice.pick(&["O", "l", "c", "E"]);
        [&price[..place], letter, &price[place + 1..]].concat()
    }),
];

/// What may stand in place of a market order's dash.
const DASHES: [(&str, Spelling); 3] = [
    ("two-dashes", |_| "--".to_string()),
    ("dash-and-more", |dice| {
        "-".to_string() + &price(dice, 1, false)
    }),
    ("zero-after-market", |_| "0".to_string()),
];

fn prices() -> Vec<Fault> {
    let empty = [
        price_fault("empty-limit", "LMT", |_| String::new()),
        price_fault("empty-market", "MKT", |_| String::new()),
    ];
    let limits = PRICES.map(|(name, spelling)| price_fault(name, "LMT", spelling));
    let markets = DASHES.map(|(name, spelling)| price_fault(name, "MKT", spelling));
    empty.into_iter().chain(limits).chain(markets).collect()
}

/// A wrong price or dash after this kind.
fn price_fault(name: &str, kind: &'static str, spelling: Spelling) -> Fault {
    Fault::new(name, Field::Price, move |dice, order| {
        order.set(Field::Kind, kind);
        order.set(Field::Price, spelling(dice));
    })
}

/// A price where a dash is due, and the other way about. Beside a wrong kind
/// neither would be wrong.
pub fn crossed() -> Vec<Fault> {
    vec![
        price_fault("dash-after-limit", "LMT", |_| "-".to_string()),
        price_fault("after-market", "MKT", |dice| price(dice, 2, false)),
    ]
}

/// Bytes that stand in no field, by what they are.
const STRAYS: [(&str, &[u8]); 5] = [
    ("sign", b"+-"),
    ("tab", b"\t"),
    ("nul", b"\0"),
    ("high", &[0x80, 0xa0, 0xb2, 0xc3, 0xff]),
    // Those before 0 and behind 9 and Z are among them.
    ("mark", b"/:[@,;_#'*\"$\r\x0b\x0c\x1a\x7f"),
];

/// A stray byte somewhere in the field. A sign in a price is told above: beside
/// a market order's dash it could be another dash.
pub fn strays(field: Field) -> Vec<Fault> {
    let stray = |(name, bytes): (&str, &'static [u8])| {
        Fault::given(name, field, move |dice, right| {
            let stray = dice.pick(bytes);
            with_byte(dice, right, stray)
        })
    };
    let strays = STRAYS.into_iter();
    strays
        .filter(|(name, _)| field != Field::Price || *name != "sign")
        .map(stray)
        .collect()
}
