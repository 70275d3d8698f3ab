//! Scenes for the opening: each source of its price, each way of being not
//! valid, imbalances on both sides and cancelled orders on both sides; and the
//! midpoint in each grid.

use std::io;
use std::ops::RangeInclusive;

use second::entry::Side;

use super::{Scene, SIDES};
use crate::pen::{into, limit, market, with, Pen, DAY, PLAIN};
use crate::pen::{Numbers, ALLOCATION, CLOSE, GRID, PRINT};

/// The orders of one side, as price and size.
type Orders = &'static [(u32, u32)];

pub const ALL: [Scene; 8] = [
    not_crossed,
    midpoints,
    prints_between_two_quotes,
    one_quote,
    no_quote,
    none_valid,
    imbalances,
    random_books,
];

/// The scenes for the midpoint in each grid, which a tape has behind all those
/// above.
pub const GRIDS: [Scene; 7] = [
    midpoints_beside_a_step,
    midpoints_at_the_turn,
    midpoints_of_a_few_cents,
    midpoints_below_the_bid,
    midpoints_valid_once_rounded,
    prints_off_the_grid,
    random_books_on_the_grid,
];

/// Settings of either class with these prints, unopened.
fn unopened(pen: &mut Pen, print: u32, close: u32) -> io::Result<()> {
    unopened_in(pen, 1, (print, close))
}

/// Settings of either class in this grid with this print and close, unopened.
fn unopened_in(pen: &mut Pen, grid: u32, prints: (u32, u32)) -> io::Result<()> {
    let class = pen.either_class();
    let (print, close) = prints;
    let replaced = [
        (ALLOCATION, class),
        (GRID, grid),
        (PRINT, print),
        (CLOSE, close),
    ];
    pen.settings(with(PLAIN, &replaced))
}

/// Orders of one side, each of some tenant, as price and size.
fn rest(pen: &mut Pen, side: Side, orders: &[(u32, u32)]) -> io::Result<()> {
    for (price, size) in orders {
        let tenant = pen.tenant();
        pen.take(tenant, limit(side, DAY, *price, *size))?;
    }
    Ok(())
}

/// A book that crosses at every price.
fn crossed_everywhere(pen: &mut Pen) -> io::Result<()> {
    let (buy, sell) = (pen.dice.within(1..=9), pen.dice.within(1..=9));
    rest(pen, Side::Buy, &[(1_000_000, buy)])?;
    rest(pen, Side::Sell, &[(1, sell)])
}

fn not_crossed(pen: &mut Pen) -> io::Result<()> {
    let books: [(Orders, Orders); 4] = [
        (&[], &[]),
        (&[(100, 5)], &[]),
        (&[], &[(100, 5)]),
        (&[(99, 5), (90, 1)], &[(100, 5)]),
    ];
    for (buys, sells) in books {
        for away in [(0, 0), (120, 110), (90, 300)] {
            unopened(pen, 100, 0)?;
            rest(pen, Side::Buy, buys)?;
            rest(pen, Side::Sell, sells)?;
            pen.away(away.0, away.1)?;
            pen.open()?;
            pen.open()?;
        }
    }
    Ok(())
}

/// For each row of the table: a bid in it, and its minimum amount.
fn bids(pen: &mut Pen) -> Vec<(u32, u32)> {
    let rows = [
        (1..=199, 25),
        (200..=500, 40),
        (501..=1_000, 50),
        (1_001..=2_000, 80),
        (2_001..=5_000, 100),
        (5_001..=10_000, 150),
        (10_001..=900_000, 200),
    ];
    rows.into_iter()
        .flat_map(|(bids, amount)| {
            let some = pen.dice.within(bids.clone());
            [
                (*bids.start(), amount),
                (some, amount),
                (*bids.end(), amount),
            ]
        })
        .collect()
}

/// The widest quote whose midpoint is valid, after one that is a cent wider.
fn midpoints(pen: &mut Pen) -> io::Result<()> {
    for (bid, amount) in bids(pen) {
        unopened(pen, 0, 0)?;
        crossed_everywhere(pen)?;
        let widest = bid + 2 * amount + 1;
        pen.away(bid, widest + 1)?;
        pen.open()?;
        let offer = pen.dice.pick(&[widest, widest - 1, bid, bid + 1]);
        pen.away(bid, offer)?;
        pen.open()?;
    }
    Ok(())
}

/// Prints and closes under two quotes too wide for their midpoint: at the
/// minimum amount from either, a cent further, at a quote and outside.
fn prints_between_two_quotes(pen: &mut Pen) -> io::Result<()> {
    for (bid, amount) in bids(pen) {
        let offer = bid + 3 * amount + pen.dice.within(0..=90);
        let valid = [bid, bid + amount, offer - amount, offer];
        let not_valid = [bid - 1, bid + amount + 1, offer - amount - 1, offer + 1, 0];
        let good = pen.dice.pick(&valid);
        let bad = pen.dice.pick(&not_valid);
        for (print, close) in [(good, bad), (bad, good), (0, good), (bad, bad)] {
            unopened(pen, print, close)?;
            crossed_everywhere(pen)?;
            pen.away(bid, offer)?;
            pen.open()?;
        }
    }
    Ok(())
}

fn one_quote(pen: &mut Pen) -> io::Result<()> {
    for side in SIDES {
        let quote = pen.dice.within(100..=900);
        let good = into(side.opposite(), quote, pen.dice.within(0..=9));
        let bad = into(side, quote, pen.dice.within(1..=9));
        for (print, close) in [(good, bad), (bad, good), (0, good), (bad, bad), (quote, 0)] {
            unopened(pen, print, close)?;
            crossed_everywhere(pen)?;
            pen.away_against(side, quote)?;
            pen.open()?;
        }
    }
    Ok(())
}

fn no_quote(pen: &mut Pen) -> io::Result<()> {
    let some = pen.dice.within(1..=1_000_000);
    for (print, close) in [(some, 5), (0, some), (0, 0), (1, 0), (1_000_000, 0)] {
        unopened(pen, print, close)?;
        crossed_everywhere(pen)?;
        pen.open()?;
    }
    Ok(())
}

/// Refused by 20, still unopened, and opened under a better quote.
fn none_valid(pen: &mut Pen) -> io::Result<()> {
    let bid = pen.dice.within(100..=400);
    unopened(pen, bid, bid)?;
    crossed_everywhere(pen)?;
    pen.away(bid, bid - 1)?;
    pen.open()?;
    pen.take(2, market(Side::Buy, DAY, 1))?;
    pen.away(bid, bid)?;
    pen.open()?;
    pen.take(2, market(Side::Buy, DAY, 1))
}

/// Books around a price with more of one side, of the other and of neither,
/// and with nothing to trade at the price.
fn imbalances(pen: &mut Pen) -> io::Result<()> {
    for side in SIDES {
        let price = pen.dice.within(300..=700);
        let other = side.opposite();
        let books: [(Orders, Orders); 5] = [
            (&[(5, 5), (0, 5)], &[(0, 4), (3, 3)]),
            (&[(9, 2), (7, 2), (5, 2), (1, 2)], &[(0, 3), (4, 9), (6, 1)]),
            (&[(5, 4), (2, 2)], &[(0, 1), (1, 9)]),
            (&[(2, 4), (0, 1)], &[(0, 5), (1, 2)]),
            (&[(8, 4), (2, 4)], &[(4, 4), (9, 1)]),
        ];
        for (orders, others) in books {
            unopened(pen, price, 0)?;
            for (distance, size) in orders {
                rest(pen, side, &[(into(side, price, *distance), *size)])?;
            }
            for (distance, size) in others {
                rest(pen, other, &[(into(side, price, *distance), *size)])?;
            }
            pen.open()?;
        }
    }
    Ok(())
}

/// Random books around a random price, under random quotes.
fn random_books(pen: &mut Pen) -> io::Result<()> {
    for _ in 0..6 {
        let price = pen.dice.within(150..=260);
        unopened(pen, price, 0)?;
        for _ in 0..pen.dice.within(4..=40) {
            let side = pen.dice.pick(&SIDES);
            let limit = pen.dice.within(price - 12..=price + 12);
            let size = pen.dice.within(1..=20);
            rest(pen, side, &[(limit, size)])?;
        }
        let apart = pen.dice.within(0..=12);
        match pen.dice.within(0..=3) {
            0 => pen.away(price - apart, price + apart)?,
            1 => pen.away(price - apart, 0)?,
            2 => pen.away(0, price + apart)?,
            _ => {}
        }
        pen.open()?;
        pen.take(5, market(Side::Sell, DAY, 15))?;
        pen.take(5, market(Side::Buy, DAY, 15))?;
    }
    Ok(())
}

/// A book that crosses at every price of the grid.
fn crossed_in(pen: &mut Pen, grid: u32) -> io::Result<()> {
    let (buy, sell) = (pen.dice.within(1..=9), pen.dice.within(1..=9));
    let lowest = if grid == 3 { 5 } else { 1 };
    let orders = [
        limit(Side::Buy, DAY, 1_000_000, buy),
        limit(Side::Sell, DAY, lowest, sell),
    ];
    let tenant = pen.tenant();
    pen.take_all(tenant, &orders)
}

/// Quotes an unopened series and opens it.
fn open_under(pen: &mut Pen, quotes: (u32, u32)) -> io::Result<()> {
    pen.away(quotes.0, quotes.1)?;
    pen.open()
}

/// A series in this grid with this print and close, its book crossed at every
/// price, opened under these quotes.
fn open_in(pen: &mut Pen, grid: u32, prints: (u32, u32), quotes: (u32, u32)) -> io::Result<()> {
    unopened_in(pen, grid, prints)?;
    crossed_in(pen, grid)?;
    open_under(pen, quotes)
}

/// Quotes with this sum, the bid `apart` cents below half of it.
fn quotes_around(sum: u32, apart: u32) -> (u32, u32) {
    let bid = sum / 2 - apart;
    (bid, sum - bid)
}

/// A price on a grid that steps by more than a cent there.
struct Rung {
    grid: u32,
    step: u32,
    price: u32,
}

/// Where grids step by more than a cent: the grid, its step, and how many
/// steps up a rung may lie, with room for four more on either side.
const STRETCHES: [(u32, u32, RangeInclusive<u32>); 3] =
    [(2, 5, 64..=200), (3, 5, 24..=55), (3, 10, 34..=100)];

/// A rung of each stretch.
fn rungs(pen: &mut Pen) -> [Rung; 3] {
    STRETCHES.map(|(grid, step, steps)| Rung {
        grid,
        step,
        price: step * pen.dice.within(steps),
    })
}

/// Midpoints a cent and half a cent below a step, on it, half a cent and a cent
/// above it and in between, and one of them on the grid of single cents.
fn midpoints_beside_a_step(pen: &mut Pen) -> io::Result<()> {
    for Rung { grid, step, price } in rungs(pen) {
        let twice = 2 * price;
        let between = twice + pen.dice.within(3..=2 * step - 3);
        let sums = [twice - 2, twice - 1, twice, twice + 1, twice + 2, between];
        for sum in sums {
            let apart = pen.dice.within(step..=2 * step);
            open_in(pen, grid, (0, 0), quotes_around(sum, apart))?;
        }
        let sum = pen.dice.pick(&sums);
        open_in(pen, 1, (0, 0), quotes_around(sum, step))?;
    }
    Ok(())
}

/// Midpoints around 300 cents, where the grids 2 and 3 turn to their wider
/// steps, up to the first price that all grids share again.
fn midpoints_at_the_turn(pen: &mut Pen) -> io::Result<()> {
    for sum in [598, 599, 600, 608, 609, 610, 618, 619, 620] {
        for grid in 1..=3 {
            let apart = pen.dice.within(10..=30);
            open_in(pen, grid, (0, 0), quotes_around(sum, apart))?;
        }
    }
    Ok(())
}

/// Quotes of a few cents, where grid 3 has no midpoint below 5: 20 without a
/// print and close until it has one, else the first of these that is valid.
fn midpoints_of_a_few_cents(pen: &mut Pen) -> io::Result<()> {
    for enough in [10, 11] {
        unopened_in(pen, 3, (0, 0))?;
        crossed_in(pen, 3)?;
        for sum in 2..=9 {
            let quotes = few_cents(pen, sum);
            open_under(pen, quotes)?;
        }
        open_under(pen, (6, enough - 6))?;
        let quotes = few_cents(pen, enough);
        open_under(pen, quotes)?;
    }
    let first = pen.dice.within(0..=3);
    for sum in 2..=11 {
        let (bid, offer) = few_cents(pen, sum);
        let good = pen.dice.within(bid..=offer);
        let bad = pen.dice.pick(&[bid - 1, offer + 1]);
        let prints = [(good, bad), (bad, good), (0, good), (bad, bad)];
        let chosen = prints[(first + sum) as usize % prints.len()];
        open_in(pen, 3, chosen, (bid, offer))?;
    }
    for grid in [1, 2] {
        let sum = pen.dice.within(2..=9);
        let quotes = few_cents(pen, sum);
        open_in(pen, grid, (0, 0), quotes)?;
    }
    Ok(())
}

/// Quotes with this sum, the bid at most the offer.
fn few_cents(pen: &mut Pen, sum: u32) -> (u32, u32) {
    let bid = pen.dice.within(1..=sum / 2);
    (bid, sum - bid)
}

/// Bids off the grid with the midpoint on the step below them: a print or a
/// close between the quotes is taken, and with none it is 20 until the bid
/// falls to the step.
fn midpoints_below_the_bid(pen: &mut Pen) -> io::Result<()> {
    for Rung { grid, step, price } in rungs(pen) {
        let bid = price + pen.dice.within(1..=step - 1);
        let offer = pen.dice.within(bid..=2 * (price + step) - 1 - bid);
        let good = pen.dice.within(bid..=offer);
        let bad = pen.dice.pick(&[price, bid - 1, offer + 1]);
        for prints in [(good, bad), (bad, good), (0, good), (bad, 0)] {
            open_in(pen, grid, prints, (bid, offer))?;
        }
        open_under(pen, (price, offer))?;
    }
    Ok(())
}

/// In each row of the table: quotes with half their sum further than the
/// minimum amount from both, and the midpoint, on the step below, within it.
/// With half the sum on the next step it is 20, and so it is on the grid of
/// single cents.
fn midpoints_valid_once_rounded(pen: &mut Pen) -> io::Result<()> {
    // The grid and its step, a bid in tens of cents and its minimum amount.
    let rows = [
        (2, 5, 26..=49, 40),
        (2, 5, 51..=99, 50),
        (2, 5, 101..=199, 80),
        (2, 5, 201..=499, 100),
        (2, 5, 501..=999, 150),
        (2, 5, 1_001..=90_000, 200),
        (3, 5, 1..=19, 25),
        (3, 5, 20..=25, 40),
        (3, 10, 26..=49, 40),
        (3, 10, 51..=99, 50),
        (3, 10, 101..=199, 80),
        (3, 10, 201..=499, 100),
        (3, 10, 501..=999, 150),
        (3, 10, 1_001..=90_000, 200),
    ];
    let mut all = Vec::new();
    for (grid, step, tens, amount) in rows {
        let on_step = 10 * pen.dice.within(tens);
        let bid = on_step + pen.dice.within(0..=3);
        let next = on_step + amount + step;
        let sum = pen.dice.within(2 * (bid + amount + 1)..=2 * next - 1);
        all.push((bid, sum - bid));
        unopened_in(pen, grid, (0, 0))?;
        crossed_in(pen, grid)?;
        if pen.dice.chance(50) {
            open_under(pen, (bid, 2 * next - bid))?;
        }
        open_under(pen, (bid, sum - bid))?;
    }
    unopened_in(pen, 1, (0, 0))?;
    crossed_in(pen, 1)?;
    for quotes in all {
        open_under(pen, quotes)?;
    }
    Ok(())
}

/// Prints and closes between two steps, which are taken as they are: without a
/// quote, with either and with two whose midpoint is not valid.
fn prints_off_the_grid(pen: &mut Pen) -> io::Result<()> {
    for Rung { grid, step, price } in rungs(pen) {
        let off = price + pen.dice.within(1..=step - 1);
        let (below, above) = (off - pen.dice.within(0..=9), off + pen.dice.within(0..=9));
        for quotes in [(0, 0), (below, 0), (0, above), (below, below + 300)] {
            let prints = pen.dice.pick(&[(off, 0), (off, price), (0, off)]);
            open_in(pen, grid, prints, quotes)?;
        }
    }
    Ok(())
}

/// Random books on the steps around a midpoint, so that it decides who trades
/// and who is cancelled.
fn random_books_on_the_grid(pen: &mut Pen) -> io::Result<()> {
    for Rung { grid, step, price } in rungs(pen) {
        let lowest = price - 4 * step;
        let count = pen.dice.within(6..=14);
        let orders: Vec<Numbers> = (0..count)
            .map(|_| {
                let side = pen.dice.pick(&SIDES);
                let on_step = lowest + step * pen.dice.within(0..=8);
                limit(side, DAY, on_step, pen.dice.within(1..=20))
            })
            .collect();
        unopened_in(pen, grid, (0, 0))?;
        let tenant = pen.tenant();
        pen.take_all(tenant, &orders)?;
        let sum = 2 * price + pen.dice.within(0..=2 * step - 1);
        open_under(pen, quotes_around(sum, 2 * step))?;
    }
    Ok(())
}
