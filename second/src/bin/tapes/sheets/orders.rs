//! Right lines, as their fields.

use crate::dice::Dice;

#[derive(Clone, Copy, Debug, PartialEq, Eq)]
pub enum Field {
    Tenant,
    Side,
    Size,
    Kind,
    Price,
    Life,
}

/// The fields from the left.
pub const FIELDS: [Field; 6] = [
    Field::Tenant,
    Field::Side,
    Field::Size,
    Field::Kind,
    Field::Price,
    Field::Life,
];

impl Field {
    pub fn name(self) -> &'static str {
        match self {
            Field::Tenant => "tenant",
            Field::Side => "side",
            Field::Size => "size",
            Field::Kind => "kind",
            Field::Price => "price",
            Field::Life => "life",
        }
    }

    /// The words that stand in this field; none where numbers do.
    pub fn words(self) -> &'static [&'static str] {
        match self {
            Field::Side => &["BUY", "SELL"],
            Field::Kind => &["LMT", "MKT"],
            Field::Life => &["DAY", "NOW"],
            Field::Tenant | Field::Size | Field::Price => &[],
        }
    }

    /// The refusal of a line whose leftmost wrong field this is.
    pub fn refusal(self) -> u32 {
        if self.words().is_empty() {
            44
        } else {
            43
        }
    }

    /// How many fields stand left of this one.
    pub fn place(self) -> usize {
        self as usize
    }
}

/// A line, as its fields.
#[derive(Clone, Debug)]
pub struct Order {
    pub fields: [Vec<u8>; 6],
}

impl Order {
    /// The line without its newline.
    pub fn line(&self) -> Vec<u8> {
        self.fields.join(&b' ')
    }

    pub fn field(&self, field: Field) -> &[u8] {
        &self.fields[field.place()]
    }

    pub fn set(&mut self, field: Field, to: impl Into<Vec<u8>>) {
        self.fields[field.place()] = to.into();
    }

    /// The same order with another field.
    pub fn with(mut self, field: Field, to: impl Into<Vec<u8>>) -> Order {
        self.set(field, to);
        self
    }

    /// The fields left of this one, a space between.
    pub fn before(&self, field: Field) -> Vec<u8> {
        self.fields[..field.place()].join(&b' ')
    }
}

/// So many digits, the first one 0 or not.
pub fn digits(dice: &mut Dice, length: usize, zero: bool) -> String {
    let first = if zero { 0 } else { dice.within(1..=9) };
    let rest = (1..length).map(|_| dice.within(0..=9).to_string());
    std::iter::once(first.to_string()).chain(rest).collect()
}

/// A price with so many digits before its point, the first one 0 or not.
pub fn price(dice: &mut Dice, length: usize, zero: bool) -> String {
    format!("{}.{:02}", digits(dice, length, zero), dice.within(0..=99))
}

fn any_size(dice: &mut Dice) -> String {
    let length = dice.within(1..=6) as usize;
    let zero = dice.chance(20);
    digits(dice, length, zero)
}

fn any_price(dice: &mut Dice) -> String {
    let length = dice.within(1..=5) as usize;
    let zero = dice.chance(20);
    price(dice, length, zero)
}

fn order(dice: &mut Dice, kind: &str, price: &str) -> Order {
    let size = any_size(dice);
    let (side, life) = (
        dice.pick(Field::Side.words()),
        dice.pick(Field::Life.words()),
    );
    let tenant = dice.within(0..=9).to_string();
    let fields = [&tenant, side, &size, kind, price, life];
    Order {
        fields: fields.map(|field| field.as_bytes().to_vec()),
    }
}

/// Any limit order.
pub fn limit(dice: &mut Dice) -> Order {
    let price = any_price(dice);
    order(dice, "LMT", &price)
}

/// Any market order.
pub fn market(dice: &mut Dice) -> Order {
    order(dice, "MKT", "-")
}

/// Any order.
pub fn any(dice: &mut Dice) -> Order {
    if dice.chance(70) {
        limit(dice)
    } else {
        market(dice)
    }
}

/// The lengths of a right line, its newline with it.
pub const SHORTEST: usize = 18;
pub const LONGEST: usize = 31;

/// An order whose line and newline are so many bytes, from the shortest to the
/// longest that there are.
pub fn of_length(dice: &mut Dice, length: usize) -> Order {
    let length = length.clamp(SHORTEST, LONGEST);
    loop {
        let order = any(dice);
        if order.line().len() + 1 == length {
            return order;
        }
    }
}
