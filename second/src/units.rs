//! The units of this trade. A price never stands where a size is meant.

/// The highest price, strike, buffer, width, print or away quote.
pub const MOST_CENTS: u32 = 1_000_000;

/// The largest size of one order.
pub const MOST_CONTRACTS: u32 = 999_999;

/// How many tenants share the book.
pub const TENANTS: usize = 9;

/// A price, or a distance between two prices.
#[derive(Clone, Copy, Debug, Default, PartialEq, Eq, PartialOrd, Ord)]
pub struct Cents(pub u64);

/// A size, or a part of one.
#[derive(Clone, Copy, Debug, Default, PartialEq, Eq, PartialOrd, Ord)]
pub struct Contracts(pub u64);

impl Cents {
    /// A quote or print as it is given: 0 says that it is absent.
    pub fn unless_absent(given: u32) -> Option<Cents> {
        (given != 0).then_some(Cents(u64::from(given)))
    }

    /// This price and `distance` more.
    pub fn plus(self, distance: Cents) -> Cents {
        Cents(self.0 + distance.0)
    }

    /// This price less `distance`, 0 where that would lie below 0.
    pub fn less(self, distance: Cents) -> Cents {
        Cents(self.0.saturating_sub(distance.0))
    }
}

impl Contracts {
    /// What remains after `taken` contracts, never below 0.
    pub fn less(self, taken: Contracts) -> Contracts {
        Contracts(self.0.saturating_sub(taken.0))
    }
}

/// The contracts of many sizes together.
pub fn total(sizes: impl Iterator<Item = Contracts>) -> Contracts {
    Contracts(sizes.map(|size| size.0).sum())
}
