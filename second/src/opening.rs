//! The opening: its price, its fills and the orders it cancels.

use crate::book::{Book, Fill};
use crate::entry::Side;
use crate::judging::Away;
use crate::settings::{Grid, Settings};
use crate::units::{total, Cents, Contracts};

/// Ceilings of NBB and the minimum amount up to each.
const MINIMUM_AMOUNTS: [(Cents, Cents); 6] = [
    (Cents(199), Cents(25)),
    (Cents(500), Cents(40)),
    (Cents(1_000), Cents(50)),
    (Cents(2_000), Cents(80)),
    (Cents(5_000), Cents(100)),
    (Cents(10_000), Cents(150)),
];

/// The minimum amount above the last ceiling.
const MINIMUM_ABOVE: Cents = Cents(200);

/// Where an opening price comes from.
#[derive(Clone, Copy, Debug, PartialEq, Eq, PartialOrd, Ord)]
pub enum Source {
    Midpoint,
    LastPrint,
    PreviousClose,
}

/// What an opening did.
#[derive(Clone, Debug, Default, PartialEq, Eq)]
pub struct Opening {
    pub price: Cents,
    pub volume: Contracts,
    /// The buys that traded, best price first, then the sells.
    pub fills: Vec<Fill>,
    /// How many of the fills are buys.
    pub bought: usize,
    /// The numbers of the cancelled orders, rising.
    pub gone: Vec<u32>,
}

/// The minimum amount for an away bid.
pub fn minimum_amount(nbb: Cents) -> Cents {
    MINIMUM_AMOUNTS
        .iter()
        .find(|(ceiling, _)| nbb <= *ceiling)
        .map_or(MINIMUM_ABOVE, |(_, amount)| *amount)
}

/// Whether an opening price is valid under the away quote.
pub fn valid(away: Away, price: Cents) -> bool {
    match (away.bid, away.offer) {
        (Some(nbb), Some(nbo)) => {
            let amount = minimum_amount(nbb);
            let inside = nbb <= price && price <= nbo;
            inside && (price <= nbb.plus(amount) || price.plus(amount) >= nbo)
        }
        (Some(nbb), None) => price >= nbb,
        (None, Some(nbo)) => price <= nbo,
        (None, None) => true,
    }
}

/// The midpoint of two quotes: the highest price of the grid at or below
/// (NBB + NBO)/2. With a quote missing there is none, and in a grid of five
/// cents there is none below 5. Half a cent never matters, since every price is
/// a whole number of cents.
pub fn midpoint(away: Away, grid: Grid) -> Option<Cents> {
    let (nbb, nbo) = away.bid.zip(away.offer)?;
    let middle = (nbb.0 + nbo.0) / 2;
    (1..=middle)
        .rev()
        .map(Cents)
        .find(|price| grid.holds(*price))
}

/// Midpoint, last print and previous close, as far as each is present. Print
/// and close are taken as they are, on the grid or off it.
pub fn candidates(away: Away, settings: &Settings) -> Vec<(Source, Cents)> {
    [
        (Source::Midpoint, midpoint(away, settings.grid)),
        (Source::LastPrint, settings.last_print),
        (Source::PreviousClose, settings.previous_close),
    ]
    .into_iter()
    .filter_map(|(source, price)| price.map(|price| (source, price)))
    .collect()
}

/// The first valid opening price.
pub fn opening_price(away: Away, settings: &Settings) -> Option<(Source, Cents)> {
    candidates(away, settings)
        .into_iter()
        .find(|(_, price)| valid(away, *price))
}

/// Opens a crossed book at `price`.
pub fn open_at(book: &mut Book, price: Cents) -> Opening {
    let volume = eligible(book, Side::Buy, price).min(eligible(book, Side::Sell, price));
    let mut fills = fill_side(book, Side::Buy, price, volume);
    let bought = fills.len();
    fills.extend(fill_side(book, Side::Sell, price, volume));
    Opening {
        price,
        volume,
        fills,
        bought,
        gone: cancel_crossing(book, price),
    }
}

/// Whether an order of `side` at `limit` trades at the opening price.
fn reaches(side: Side, limit: Cents, price: Cents) -> bool {
    match side {
        Side::Buy => limit >= price,
        Side::Sell => limit <= price,
    }
}

/// The contracts of one side that may trade at the opening price.
pub fn eligible(book: &Book, side: Side, price: Cents) -> Contracts {
    total(
        book.best_first(side)
            .take_while(|(limit, _)| reaches(side, *limit, price))
            .flat_map(|(_, level)| level.values().map(|order| order.size)),
    )
}

/// Fills `volume` contracts of one side, best price first, then lower number.
fn fill_side(book: &mut Book, side: Side, price: Cents, volume: Contracts) -> Vec<Fill> {
    let queue: Vec<(u32, Contracts)> = book
        .best_first(side)
        .flat_map(|(_, level)| level.iter().map(|(number, order)| (*number, order.size)))
        .collect();
    let mut left = volume;
    let mut fills = Vec::new();
    for (number, size) in queue {
        let quantity = size.min(left);
        if quantity == Contracts(0) {
            break;
        }
        left = left.less(quantity);
        fills.extend(book.fill(number, quantity, price));
    }
    fills
}

/// Cancels what remains crossed: of the side that still reaches the opening
/// price, each order at or beyond the other side's best remaining price.
fn cancel_crossing(book: &mut Book, price: Cents) -> Vec<u32> {
    let mut gone: Vec<u32> = [Side::Buy, Side::Sell]
        .into_iter()
        .filter(|side| eligible(book, *side, price) > Contracts(0))
        .flat_map(|side| crossing(book, side))
        .collect();
    gone.sort_unstable();
    for number in &gone {
        book.remove(*number);
    }
    gone
}

fn crossing(book: &Book, side: Side) -> Vec<u32> {
    let Some(opposite_best) = book.best(side.opposite()) else {
        return Vec::new();
    };
    book.best_first(side)
        .take_while(|(limit, _)| reaches(side, *limit, opposite_best))
        .flat_map(|(_, level)| level.keys().copied())
        .collect()
}

#[cfg(test)]
mod tests {
    use super::*;

    fn away(bid: u32, offer: u32) -> Away {
        Away {
            bid: Cents::unless_absent(bid),
            offer: Cents::unless_absent(offer),
        }
    }

    /// Settings of a call in this grid.
    fn settings(grid: u32, print: u32, close: u32) -> Settings {
        Settings::from_numbers(&[1, grid, 1, 10_000, 10, 20, 10, 25, 500, print, close]).unwrap()
    }

    /// The midpoint in this grid, whether it is valid or not.
    fn middle(grid: u32, bid: u32, offer: u32) -> Option<u64> {
        midpoint(away(bid, offer), settings(grid, 0, 0).grid).map(|price| price.0)
    }

    /// The opening price in this grid, with this print and close.
    fn first(grid: u32, quotes: (u32, u32), print: u32, close: u32) -> Option<u64> {
        let (bid, offer) = quotes;
        opening_price(away(bid, offer), &settings(grid, print, close)).map(|(_, price)| price.0)
    }

    #[test]
    fn e6() {
        assert_eq!(first(1, (100, 151), 0, 0), Some(125));
        assert_eq!(first(1, (100, 153), 0, 0), None);
        assert_eq!(first(1, (100, 153), 120, 128), Some(120));
        assert_eq!(first(1, (100, 153), 0, 128), Some(128));
        assert_eq!(first(1, (100, 153), 126, 128), Some(128));
        assert_eq!(first(1, (100, 153), 126, 127), None);
    }

    #[test]
    fn a_midpoint_is_a_price_that_can_be_sent() {
        assert_eq!(first(2, (298, 306), 0, 0), Some(300));
        assert_eq!(first(1, (298, 306), 0, 0), Some(302));
        assert_eq!(first(3, (298, 306), 0, 0), Some(300));
        assert_eq!(first(2, (600, 607), 603, 604), Some(600));
    }

    #[test]
    fn midpoints_at_the_turn_of_the_grids() {
        // NBB + NBO, and the midpoint in each grid.
        let turns = [
            (598, [299, 299, 295]),
            (599, [299, 299, 295]),
            (600, [300, 300, 300]),
            (601, [300, 300, 300]),
            (604, [302, 300, 300]),
            (608, [304, 300, 300]),
            (609, [304, 300, 300]),
            (610, [305, 305, 300]),
            (618, [309, 305, 300]),
            (619, [309, 305, 300]),
            (620, [310, 310, 310]),
        ];
        for (sum, midpoints) in turns {
            for (grid, price) in (1..).zip(midpoints) {
                assert_eq!(middle(grid, 280, sum - 280), Some(price), "{sum} {grid}");
                assert_eq!(first(grid, (280, sum - 280), 0, 0), Some(price));
            }
        }
    }

    #[test]
    fn a_midpoint_is_the_highest_price_of_the_grid_at_or_below_the_half() {
        for grid in 1..=3 {
            let holds = |price| settings(grid, 0, 0).grid.holds(Cents(price));
            for sum in 2..=2_000 {
                let below = (1..=1_000).filter(|price| holds(*price) && 2 * price <= sum);
                let half = u32::try_from(sum / 2).unwrap();
                let offer = u32::try_from(sum).unwrap() - half;
                assert_eq!(middle(grid, half, offer), below.max(), "{sum} {grid}");
            }
        }
        for grid in 1..=3 {
            assert_eq!(middle(grid, 1_000_000, 1_000_000), Some(1_000_000));
        }
        assert_eq!(middle(2, 999_999, 1_000_000), Some(999_995));
        assert_eq!(middle(3, 999_999, 1_000_000), Some(999_990));
    }

    #[test]
    fn below_five_cents_grid_three_has_no_midpoint() {
        for sum in 2..=9 {
            let quotes = (sum / 2, sum - sum / 2);
            assert_eq!(middle(3, quotes.0, quotes.1), None, "{sum}");
            assert_eq!(first(3, quotes, 0, 0), None, "{sum}");
            assert_eq!(first(3, quotes, quotes.0, 0), Some(u64::from(quotes.0)));
            assert_eq!(first(3, quotes, 0, quotes.1), Some(u64::from(quotes.1)));
            for grid in [1, 2] {
                assert_eq!(first(grid, quotes, 0, 0), Some(u64::from(sum / 2)));
            }
        }
        assert_eq!(first(3, (3, 6), 7, 6), Some(6));
        assert_eq!(first(3, (3, 6), 7, 2), None);
        for quotes in [(4, 6), (5, 5), (1, 9), (5, 6), (1, 10)] {
            assert_eq!(first(3, quotes, 4, 4), Some(5), "{quotes:?}");
        }
        assert_eq!(middle(3, 6, 5), Some(5));
        assert_eq!(first(3, (6, 5), 5, 6), None);
    }

    #[test]
    fn a_midpoint_below_the_bid_is_not_valid() {
        for (grid, quotes) in [(3, (301, 303)), (2, (301, 304)), (2, (302, 302))] {
            assert_eq!(middle(grid, quotes.0, quotes.1), Some(300));
            assert_eq!(first(grid, quotes, 0, 0), None);
            assert_eq!(first(grid, quotes, 300, 305), None);
            assert_eq!(first(grid, quotes, 302, 301), Some(302));
            assert_eq!(first(grid, quotes, 0, 302), Some(302));
            assert_eq!(first(grid, quotes, 300, 302), Some(302));
        }
        assert_eq!(first(3, (300, 303), 302, 302), Some(300));
        assert_eq!(first(2, (301, 309), 302, 302), Some(305));
    }

    #[test]
    fn a_midpoint_may_be_valid_once_rounded() {
        assert_eq!(first(3, (100, 153), 0, 0), Some(125));
        assert_eq!(first(3, (100, 159), 0, 0), Some(125));
        assert_eq!(first(3, (100, 160), 0, 0), None);
        assert_eq!(first(2, (100, 153), 0, 0), None);
        assert_eq!(first(2, (300, 382), 0, 0), Some(340));
        assert_eq!(first(1, (300, 382), 0, 0), None);
    }

    #[test]
    fn print_and_close_need_not_be_on_the_grid() {
        assert_eq!(first(3, (0, 0), 102, 0), Some(102));
        assert_eq!(first(3, (0, 0), 0, 103), Some(103));
        assert_eq!(first(3, (101, 0), 99, 103), Some(103));
        assert_eq!(first(3, (0, 306), 305, 300), Some(305));
        assert_eq!(first(2, (300, 500), 301, 0), Some(301));
    }

    #[test]
    fn no_midpoint_with_a_quote_missing_and_none_valid_when_crossed() {
        for grid in 1..=3 {
            assert_eq!(middle(grid, 300, 0), None);
            assert_eq!(middle(grid, 0, 300), None);
            assert_eq!(middle(grid, 0, 0), None);
            assert_eq!(first(grid, (306, 298), 300, 302), None);
            assert_eq!(first(grid, (301, 300), 300, 301), None);
        }
    }

    #[test]
    fn minimum_amounts_turn_where_the_table_says() {
        let turns = [
            (1, 25),
            (199, 25),
            (200, 40),
            (500, 40),
            (501, 50),
            (1_000, 50),
            (1_001, 80),
            (2_000, 80),
            (2_001, 100),
            (5_000, 100),
            (5_001, 150),
            (10_000, 150),
            (10_001, 200),
            (1_000_000, 200),
        ];
        for (nbb, amount) in turns {
            assert_eq!(minimum_amount(Cents(nbb)), Cents(amount), "NBB {nbb}");
        }
    }

    #[test]
    fn one_quote_or_none_present() {
        assert!(valid(away(100, 0), Cents(100)) && !valid(away(100, 0), Cents(99)));
        assert!(valid(away(0, 100), Cents(100)) && !valid(away(0, 100), Cents(101)));
        assert!(valid(away(0, 0), Cents(1)));
    }

    #[test]
    fn a_crossed_away_quote_makes_nothing_valid() {
        assert!((1..300).all(|price| !valid(away(150, 149), Cents(price))));
        assert!(valid(away(150, 150), Cents(150)));
    }
}
