//! The book: for each side a map of levels, for each level a map of resting
//! orders by number.

use std::collections::BTreeMap;

use crate::entry::Side;
use crate::settings::Allocation;
use crate::units::{total, Cents, Contracts};

/// How many resting orders a tenant may have.
pub const ROWS_EACH: usize = 24;

/// An order waiting in the book.
#[derive(Clone, Copy, Debug, PartialEq, Eq)]
pub struct Resting {
    pub tenant: usize,
    pub size: Contracts,
}

/// The resting orders at one price, by rising number.
pub type Level = BTreeMap<u32, Resting>;

/// The record of a resting order that traded.
#[derive(Clone, Copy, Debug, PartialEq, Eq)]
pub struct Fill {
    pub number: u32,
    pub tenant: usize,
    pub quantity: Contracts,
    pub price: Cents,
}

/// Where a resting order is found.
#[derive(Clone, Copy, Debug, PartialEq, Eq)]
pub struct Spot {
    pub side: Side,
    pub price: Cents,
}

/// All resting orders of the series.
#[derive(Clone, Debug, Default, PartialEq, Eq)]
pub struct Book {
    buys: BTreeMap<Cents, Level>,
    sells: BTreeMap<Cents, Level>,
    spots: BTreeMap<u32, Spot>,
    resting_of: BTreeMap<usize, usize>,
}

impl Book {
    /// The levels of one side, by rising price.
    pub fn levels(&self, side: Side) -> &BTreeMap<Cents, Level> {
        match side {
            Side::Buy => &self.buys,
            Side::Sell => &self.sells,
        }
    }

    fn levels_mut(&mut self, side: Side) -> &mut BTreeMap<Cents, Level> {
        match side {
            Side::Buy => &mut self.buys,
            Side::Sell => &mut self.sells,
        }
    }

    /// The levels of one side, best price first.
    pub fn best_first(&self, side: Side) -> Box<dyn Iterator<Item = (Cents, &Level)> + '_> {
        let rising = self
            .levels(side)
            .iter()
            .map(|(price, level)| (*price, level));
        match side {
            Side::Buy => Box::new(rising.rev()),
            Side::Sell => Box::new(rising),
        }
    }

    /// The best price of one side.
    pub fn best(&self, side: Side) -> Option<Cents> {
        let levels = self.levels(side);
        let end = match side {
            Side::Buy => levels.last_key_value(),
            Side::Sell => levels.first_key_value(),
        };
        end.map(|(price, _)| *price)
    }

    /// Whether some resting buy is at or above some resting sell.
    pub fn crosses(&self) -> bool {
        match (self.best(Side::Buy), self.best(Side::Sell)) {
            (Some(bid), Some(offer)) => bid >= offer,
            _ => false,
        }
    }

    /// Where the order with this number rests, if it does.
    pub fn spot(&self, number: u32) -> Option<Spot> {
        self.spots.get(&number).copied()
    }

    /// The numbers of all resting orders, rising.
    pub fn numbers(&self) -> impl Iterator<Item = u32> + '_ {
        self.spots.keys().copied()
    }

    /// How many orders rest in all.
    pub fn resting(&self) -> usize {
        self.spots.len()
    }

    /// The resting order with this number.
    pub fn order(&self, number: u32) -> Option<Resting> {
        let spot = self.spot(number)?;
        self.levels(spot.side)
            .get(&spot.price)?
            .get(&number)
            .copied()
    }

    /// How many orders the tenant has resting.
    pub fn resting_of(&self, tenant: usize) -> usize {
        self.resting_of.get(&tenant).copied().unwrap_or(0)
    }

    /// Lets an order rest at its limit.
    pub fn rest(&mut self, number: u32, spot: Spot, order: Resting) {
        self.levels_mut(spot.side)
            .entry(spot.price)
            .or_default()
            .insert(number, order);
        self.spots.insert(number, spot);
        *self.resting_of.entry(order.tenant).or_default() += 1;
    }

    /// Takes an order out of the book.
    pub fn remove(&mut self, number: u32) -> Option<Resting> {
        let spot = self.spots.remove(&number)?;
        let levels = self.levels_mut(spot.side);
        let level = levels.get_mut(&spot.price)?;
        let order = level.remove(&number)?;
        if level.is_empty() {
            levels.remove(&spot.price);
        }
        if let Some(count) = self.resting_of.get_mut(&order.tenant) {
            *count -= 1;
        }
        Some(order)
    }

    /// Fills a part of a resting order at `price`; an order at size 0 leaves.
    pub fn fill(&mut self, number: u32, quantity: Contracts, price: Cents) -> Option<Fill> {
        let spot = self.spot(number)?;
        let order = self
            .levels_mut(spot.side)
            .get_mut(&spot.price)?
            .get_mut(&number)?;
        order.size = order.size.less(quantity);
        let (tenant, left) = (order.tenant, order.size);
        if left == Contracts(0) {
            self.remove(number);
        }
        Some(Fill {
            number,
            tenant,
            quantity,
            price,
        })
    }

    /// Trades an incoming order with the resting orders of `side` within the
    /// bound, best price first, each at its own price.
    pub fn trade(
        &mut self,
        side: Side,
        bound: Cents,
        size: Contracts,
        allocation: Allocation,
    ) -> Vec<Fill> {
        let mut fills = Vec::new();
        let mut left = size;
        while left > Contracts(0) {
            let Some(price) = self.best(side).filter(|best| within(side, *best, bound)) else {
                break;
            };
            let shares = shares(allocation, left, &self.levels(side)[&price]);
            left = left.less(total(shares.values().copied()));
            fills.extend(
                shares
                    .into_iter()
                    .filter_map(|(number, quantity)| self.fill(number, quantity, price)),
            );
        }
        fills
    }
}

/// Whether a resting price of `side` is within an incoming order's bound.
fn within(side: Side, price: Cents, bound: Cents) -> bool {
    match side {
        Side::Buy => price >= bound,
        Side::Sell => price <= bound,
    }
}

/// What each resting order of a level gets of `quantity` contracts, by rising
/// number; an order that gets none is left out.
pub fn shares(
    allocation: Allocation,
    quantity: Contracts,
    level: &Level,
) -> BTreeMap<u32, Contracts> {
    let whole = total(level.values().map(|order| order.size));
    let mut shares = if quantity < whole && allocation == Allocation::Proportional {
        in_proportion(quantity, whole, level)
    } else {
        by_number(quantity, level)
    };
    shares.retain(|_, share| *share > Contracts(0));
    shares
}

fn by_number(quantity: Contracts, level: &Level) -> BTreeMap<u32, Contracts> {
    let mut left = quantity;
    let mut shares = BTreeMap::new();
    for (number, order) in level {
        let share = order.size.min(left);
        left = left.less(share);
        shares.insert(*number, share);
    }
    shares
}

/// The whole part of Q·s/S for each, then one more each for the leftovers,
/// larger size first, lower number first among equals.
fn in_proportion(quantity: Contracts, whole: Contracts, level: &Level) -> BTreeMap<u32, Contracts> {
    let mut shares: BTreeMap<u32, Contracts> = level
        .iter()
        .map(|(number, order)| (*number, whole_part(quantity, order.size, whole)))
        .collect();
    let leftover = quantity.less(total(shares.values().copied()));
    for number in larger_first(level).into_iter().zip(0..leftover.0) {
        shares.entry(number.0).and_modify(|share| share.0 += 1);
    }
    shares
}

fn whole_part(quantity: Contracts, size: Contracts, whole: Contracts) -> Contracts {
    let product = u128::from(quantity.0) * u128::from(size.0);
    let part = product / u128::from(whole.0.max(1));
    Contracts(u64::try_from(part).unwrap_or(size.0))
}

/// The numbers of a level, larger size first, lower number first among equals.
pub fn larger_first(level: &Level) -> Vec<u32> {
    let mut numbers: Vec<u32> = level.keys().copied().collect();
    numbers.sort_by_key(|number| (std::cmp::Reverse(level[number].size), *number));
    numbers
}

#[cfg(test)]
mod tests {
    use super::*;

    fn level(sizes: &[u64]) -> Level {
        (1..)
            .zip(sizes)
            .map(|(number, size)| {
                let size = Contracts(*size);
                (number, Resting { tenant: 0, size })
            })
            .collect()
    }

    fn shared(allocation: Allocation, quantity: u64, sizes: &[u64]) -> Vec<u64> {
        let shares = shares(allocation, Contracts(quantity), &level(sizes));
        (1..=sizes.len() as u32)
            .map(|number| shares.get(&number).map_or(0, |share| share.0))
            .collect()
    }

    #[test]
    fn e1_to_e3() {
        let proportional = Allocation::Proportional;
        assert_eq!(shared(proportional, 10, &[5, 5, 5, 5]), [3, 3, 2, 2]);
        assert_eq!(shared(proportional, 7, &[10, 30, 20]), [1, 4, 2]);
        assert_eq!(shared(proportional, 1, &[1, 1, 1]), [1, 0, 0]);
    }

    #[test]
    fn time_fills_by_rising_number() {
        assert_eq!(shared(Allocation::Time, 7, &[5, 30, 20]), [5, 2, 0]);
        assert_eq!(shared(Allocation::Time, 99, &[5, 30, 20]), [5, 30, 20]);
    }

    #[test]
    fn shares_add_up_and_never_pass_a_size() {
        for a in 1..8 {
            for b in 1..8 {
                for c in 1..8 {
                    for quantity in 1..=(a + b + c + 1) {
                        let sizes = [a, b, c];
                        let got = shared(Allocation::Proportional, quantity, &sizes);
                        assert_eq!(got.iter().sum::<u64>(), quantity.min(a + b + c));
                        assert!(got.iter().zip(sizes).all(|(share, size)| *share <= size));
                    }
                }
            }
        }
    }

    #[test]
    fn the_largest_sizes_do_not_overflow() {
        let sizes = [999_999; 216];
        let got = shared(Allocation::Proportional, 999_999, &sizes);
        assert_eq!(got.iter().sum::<u64>(), 999_999);
        assert_eq!(got[0], 4_630);
        assert_eq!(got[215], 4_629);
    }

    #[test]
    fn a_freed_row_is_free_again() {
        let mut book = Book::default();
        let spot = Spot {
            side: Side::Buy,
            price: Cents(100),
        };
        let order = Resting {
            tenant: 4,
            size: Contracts(2),
        };
        book.rest(1, spot, order);
        assert_eq!((book.resting(), book.resting_of(4)), (1, 1));
        book.fill(1, Contracts(2), Cents(100));
        assert_eq!((book.resting(), book.resting_of(4)), (0, 0));
        assert_eq!(book.best(Side::Buy), None);
    }
}
