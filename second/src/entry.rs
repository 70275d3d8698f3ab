//! An entry: what a tenant asks for, as six numbers.

use crate::refusal::Refusal;
use crate::units::{Cents, Contracts, MOST_CENTS, MOST_CONTRACTS};

/// How many numbers an entry is.
pub const ENTRY_NUMBERS: usize = 6;

/// The side of an order.
#[derive(Clone, Copy, Debug, PartialEq, Eq, PartialOrd, Ord)]
pub enum Side {
    Buy,
    Sell,
}

impl Side {
    /// The side this one trades with.
    pub fn opposite(self) -> Side {
        match self {
            Side::Buy => Side::Sell,
            Side::Sell => Side::Buy,
        }
    }

    fn from_number(number: u32) -> Option<Side> {
        match number {
            1 => Some(Side::Buy),
            2 => Some(Side::Sell),
            _ => None,
        }
    }
}

/// The life of an order.
#[derive(Clone, Copy, Debug, PartialEq, Eq)]
pub enum Life {
    Day,
    Now,
}

impl Life {
    fn from_number(number: u32) -> Option<Life> {
        match number {
            1 => Some(Life::Day),
            2 => Some(Life::Now),
            _ => None,
        }
    }
}

/// A new order: a limit when it has a price, else a market order.
#[derive(Clone, Copy, Debug, PartialEq, Eq)]
pub struct Order {
    pub side: Side,
    pub life: Life,
    pub limit: Option<Cents>,
    pub size: Contracts,
}

/// A well-formed entry.
#[derive(Clone, Copy, Debug, PartialEq, Eq)]
pub enum Entry {
    New(Order),
    Cancel { number: u32 },
}

impl Entry {
    /// Reads kind, side, life, price, size and order number.
    pub fn from_numbers(numbers: &[u32; ENTRY_NUMBERS]) -> Result<Entry, Refusal> {
        let entry = match *numbers {
            [3, 0, 0, 0, 0, number] => (number >= 1).then_some(Entry::Cancel { number }),
            [kind, side, life, price, size, 0] => new_order(kind, side, life, price, size),
            _ => None,
        };
        entry.ok_or(Refusal::MalformedEntry)
    }
}

fn new_order(kind: u32, side: u32, life: u32, price: u32, size: u32) -> Option<Entry> {
    let limit = match (kind, price) {
        (1, 1..=MOST_CENTS) => Some(Cents(u64::from(price))),
        (2, 0) => None,
        _ => return None,
    };
    Some(Entry::New(Order {
        side: Side::from_number(side)?,
        life: Life::from_number(life)?,
        limit,
        size: sized(size)?,
    }))
}

fn sized(size: u32) -> Option<Contracts> {
    (1..=MOST_CONTRACTS)
        .contains(&size)
        .then_some(Contracts(u64::from(size)))
}

#[cfg(test)]
mod tests {
    use super::*;

    /// The paper's sentence on entries, said once more number by number.
    fn well_formed([kind, side, life, price, size, number]: [u32; ENTRY_NUMBERS]) -> bool {
        if kind == 3 {
            return side == 0 && life == 0 && price == 0 && size == 0 && number >= 1;
        }
        let priced = if kind == 2 {
            price == 0
        } else {
            kind == 1 && (1..=1_000_000).contains(&price)
        };
        let sided = side == 1 || side == 2;
        let lived = life == 1 || life == 2;
        priced && sided && lived && (1..=999_999).contains(&size) && number == 0
    }

    #[test]
    fn an_entry_is_read_exactly_when_it_is_well_formed() {
        let few = [0, 1, 2, 3, 4, u32::MAX];
        let prices = [0, 1, 5, 1_000_000, 1_000_001, u32::MAX];
        let sizes = [0, 1, 5, 999_999, 1_000_000, u32::MAX];
        for kind in few {
            for side in few {
                for life in few {
                    for price in prices {
                        for size in sizes {
                            for number in few {
                                let numbers = [kind, side, life, price, size, number];
                                let read = Entry::from_numbers(&numbers);
                                assert_eq!(read.is_ok(), well_formed(numbers), "{numbers:?}");
                            }
                        }
                    }
                }
            }
        }
    }
}
