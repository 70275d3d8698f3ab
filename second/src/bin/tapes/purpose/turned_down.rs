//! Scenes for each reason to turn an entry down, and for what just passes it;
//! and cancels of numbers given out and never given.

use std::io;

use second::entry::Side;

use super::{Scene, SIDES};
use crate::pen::{cancel, into, limit, market, with, Numbers, Pen, DAY, NOW, PLAIN};
use crate::pen::{ALLOCATION, FAR, GREATEST, GRID, LEAST, PERCENT, PRINT, STRIKE, TYPE};

pub const ALL: [Scene; 11] = [
    not_open,
    off_grid,
    put_at_strike,
    no_offer,
    no_bid,
    too_wide,
    wide_enough,
    far_price,
    rows_used,
    not_resting,
    two_reasons,
];

/// The scenes for cancels of numbers around the next one and of the day before,
/// which a tape has behind all those above.
pub const CANCELS: [Scene; 4] = [
    around_the_next_number,
    given_while_it_waits,
    numbers_of_the_day_before,
    any_number_in_reach,
];

fn not_open(pen: &mut Pen) -> io::Result<()> {
    pen.settings(PLAIN)?;
    pen.away(95, 105)?;
    for side in SIDES {
        for life in [DAY, NOW] {
            pen.take(1, market(side, life, 5))?;
        }
        pen.take(1, limit(side, NOW, 100, 5))?;
        pen.take(1, limit(side, DAY, 100, 5))?;
    }
    Ok(())
}

fn off_grid(pen: &mut Pen) -> io::Result<()> {
    let cases: [(u32, &[u32]); 3] = [
        (1, &[1, 299, 301, 999_999]),
        (2, &[299, 300, 301, 304, 305, 999_999]),
        (3, &[1, 4, 5, 299, 300, 301, 305, 310, 999_995]),
    ];
    for (grid, prices) in cases {
        for open in [false, true] {
            pen.settings(with(PLAIN, &[(GRID, grid), (FAR, 1_000_000)]))?;
            if open {
                pen.open()?;
            }
            for price in prices {
                let side = pen.dice.pick(&SIDES);
                let life = pen.dice.pick(&[DAY, NOW]);
                pen.take(2, limit(side, life, *price, 1))?;
                pen.take(2, limit(side.opposite(), DAY, *price, 1))?;
            }
        }
    }
    Ok(())
}

fn put_at_strike(pen: &mut Pen) -> io::Result<()> {
    let strike = pen.dice.within(2..=900);
    for open in [false, true] {
        pen.settings(with(PLAIN, &[(TYPE, 2), (STRIKE, strike)]))?;
        if open {
            pen.open()?;
        }
        for price in [strike, strike + 1, strike - 1] {
            pen.take(3, limit(Side::Buy, DAY, price, 1))?;
        }
        pen.take(3, limit(Side::Buy, NOW, strike, 1))?;
        pen.take(4, limit(Side::Sell, DAY, strike, 1))?;
    }
    Ok(())
}

fn no_offer(pen: &mut Pen) -> io::Result<()> {
    pen.opened(PLAIN)?;
    for bid in [0, 100] {
        pen.away(bid, 0)?;
        pen.take(5, market(Side::Buy, DAY, 3))?;
        pen.take(5, market(Side::Buy, NOW, 3))?;
    }
    pen.away(0, 100)?;
    pen.take(5, market(Side::Buy, NOW, 3))
}

fn no_bid(pen: &mut Pen) -> io::Result<()> {
    let offer = pen.dice.within(52..=900);
    for life in [DAY, NOW] {
        pen.opened(PLAIN)?;
        pen.away(0, 51)?;
        pen.take(6, market(Side::Sell, life, 3))?;
        pen.away(0, 0)?;
        pen.take(7, limit(Side::Sell, DAY, offer, 3))?;
        pen.take(6, market(Side::Sell, life, 3))?;
    }
    Ok(())
}

/// Market orders before quotes too wide by greatest, by percent and by both,
/// the quotes in the book or away.
fn too_wide(pen: &mut Pen) -> io::Result<()> {
    let cases = [(1_000, 30, 31), (1, 1_000_000, 50), (1, 30, 50)];
    for (percent, greatest, width) in cases {
        for side in SIDES {
            let bid = pen.dice.within(500..=1_000);
            let replaced = [(PERCENT, percent), (LEAST, 5), (GREATEST, greatest)];
            pen.opened(with(PLAIN, &replaced))?;
            if pen.dice.chance(50) {
                pen.away(bid, bid + width)?;
            } else {
                pen.take(0, limit(Side::Buy, DAY, bid, 4))?;
                pen.away(0, bid + width)?;
            }
            pen.take(1, market(side, DAY, 2))?;
            pen.take(1, market(side, NOW, 2))?;
        }
    }
    Ok(())
}

/// Widths exactly least, greatest and x percent, locked and crossed.
fn wide_enough(pen: &mut Pen) -> io::Result<()> {
    let cases = [
        (1_000, 0, 30, 500, 530),
        (10, 25, 500, 380, 420),
        (0, 25, 25, 100, 125),
        (0, 0, 0, 100, 100),
        (0, 0, 0, 101, 100),
    ];
    for (percent, least, greatest, bid, offer) in cases {
        for side in SIDES {
            let replaced = [(PERCENT, percent), (LEAST, least), (GREATEST, greatest)];
            pen.opened(with(PLAIN, &replaced))?;
            pen.away(bid, offer)?;
            pen.take(2, market(side, NOW, 2))?;
        }
    }
    Ok(())
}

/// Limits one cent beyond the far price and exactly at it, of both lives, the
/// quote in the book or away.
fn far_price(pen: &mut Pen) -> io::Result<()> {
    for side in SIDES {
        let quote = pen.dice.within(500..=900);
        let far = pen.dice.within(0..=60);
        pen.opened(with(PLAIN, &[(FAR, far)]))?;
        if pen.dice.chance(50) {
            pen.away_against(side, quote)?;
        } else {
            pen.take(0, limit(side.opposite(), DAY, quote, 9))?;
        }
        for life in [DAY, NOW] {
            pen.take(1, limit(side, life, into(side, quote, far + 1), 1))?;
            pen.take(1, limit(side, life, into(side, quote, far), 1))?;
        }
        pen.away(0, 0)?;
    }
    Ok(())
}

/// A tenant with 24 resting, on one side before the opening and after it, and
/// as the one that would trade in full; then all tenants, the table full.
fn rows_used(pen: &mut Pen) -> io::Result<()> {
    for side in SIDES {
        full_tenant(pen, side)?;
    }
    full_converted(pen)?;
    full_table(pen)
}

fn full_tenant(pen: &mut Pen, side: Side) -> io::Result<()> {
    let class = pen.either_class();
    pen.settings(with(PLAIN, &[(ALLOCATION, class), (PRINT, 100)]))?;
    let full = pen.tenant();
    let other = (full + 4) % 9;
    let rests = limit(side, DAY, 100, 2);
    pen.take_all(full, &[rests; 25])?;
    pen.open()?;
    pen.take(full, rests)?;
    let better = into(side, 100, 3);
    pen.take(other, limit(side.opposite(), DAY, better, 1))?;
    pen.take(full, limit(side, DAY, better, 1))?;
    pen.take(full, limit(side, NOW, better, 1))?;
    pen.take(full, market(side, DAY, 1))?;
    pen.take(other, limit(side.opposite(), NOW, 100, 3))?;
    pen.take_all(full, &[rests; 3])?;
    pen.take(full, cancel(9))?;
    pen.take_all(full, &[rests; 2])
}

fn full_converted(pen: &mut Pen) -> io::Result<()> {
    pen.opened(PLAIN)?;
    pen.take_all(3, &[limit(Side::Sell, DAY, 40, 1); 24])?;
    pen.take(3, market(Side::Sell, DAY, 1))?;
    pen.take(3, market(Side::Sell, NOW, 1))?;
    pen.take(4, market(Side::Sell, DAY, 1))
}

fn full_table(pen: &mut Pen) -> io::Result<()> {
    let class = pen.either_class();
    pen.settings(with(PLAIN, &[(ALLOCATION, class)]))?;
    for tenant in 0..9 {
        let price = 100 + tenant;
        pen.take_all(tenant, &[limit(Side::Buy, DAY, price, 2); 24])?;
    }
    pen.open()?;
    for tenant in [0, 8] {
        pen.take(tenant, limit(Side::Buy, DAY, 90, 1))?;
        pen.take(tenant, limit(Side::Sell, DAY, 120, 1))?;
    }
    pen.take(2, limit(Side::Sell, NOW, 104, 140))?;
    pen.take(8, limit(Side::Buy, DAY, 90, 1))
}

/// Cancels of numbers never given, another's, filled, cancelled, cancelled at
/// once and gone at the opening.
fn not_resting(pen: &mut Pen) -> io::Result<()> {
    for side in SIDES {
        pen.settings(with(PLAIN, &[(PRINT, 105)]))?;
        pen.take(0, cancel(1))?;
        pen.take(0, limit(side, DAY, into(side, 105, 5), 5))?;
        pen.take(0, limit(side, DAY, 105, 5))?;
        pen.take(1, limit(side.opposite(), DAY, into(side, 105, 0), 4))?;
        pen.take(1, limit(side.opposite(), DAY, into(side, 105, 3), 3))?;
        pen.take(2, cancel(1))?;
        pen.open()?;
        for (tenant, number) in [(0, 1), (1, 3), (1, 2), (0, 2), (0, 2), (0, 99)] {
            pen.take(tenant, cancel(number))?;
        }
        let resting = into(side, 105, 3);
        pen.take(5, limit(side, NOW, resting, 1))?;
        pen.take(5, limit(side, NOW, into(side.opposite(), resting, 9), 1))?;
        let last = pen.last_number();
        pen.take(5, cancel(last))?;
        pen.take(1, cancel(4))?;
        pen.take(5, cancel(u32::MAX))?;
    }
    Ok(())
}

/// Entries that two reasons apply to, so that their order shows.
fn two_reasons(pen: &mut Pen) -> io::Result<()> {
    let put = [(TYPE, 2), (STRIKE, 500), (GRID, 2), (FAR, 20)];
    pen.settings(with(PLAIN, &put))?;
    pen.take(1, limit(Side::Buy, NOW, 501, 1))?;
    pen.take(1, limit(Side::Buy, NOW, 500, 1))?;
    pen.take_all(1, &[limit(Side::Buy, DAY, 100, 1); 24])?;
    pen.open()?;
    pen.away(0, 110)?;
    for price in [501, 500, 301, 495] {
        pen.take(1, limit(Side::Buy, DAY, price, 1))?;
        pen.take(2, limit(Side::Buy, DAY, price, 1))?;
        pen.take(2, limit(Side::Buy, NOW, price, 1))?;
    }
    pen.opened(PLAIN)?;
    pen.take_all(1, &[limit(Side::Sell, DAY, 60, 1); 24])?;
    pen.take(1, market(Side::Sell, DAY, 1))?;
    pen.away(40, 0)?;
    pen.take(1, limit(Side::Sell, DAY, 19, 1))
}

/// An owner of orders and another tenant.
fn two_tenants(pen: &mut Pen) -> (u32, u32) {
    let owner = pen.tenant();
    (owner, (owner + pen.dice.within(1..=8)) % 9)
}

/// Cancels by this tenant of the last number given, of the next one and of the
/// one past it; where none is given yet, of the latter two.
fn cancel_around_the_next(pen: &mut Pen, tenant: u32) -> io::Result<()> {
    let last = pen.last_number();
    for number in last.max(1)..=last + 2 {
        pen.take(tenant, cancel(number))?;
    }
    Ok(())
}

/// The numbers around the next one before any order, while the last order
/// rests, once it is cancelled and, in an open series, cancelled at once. The
/// market order is turned down, and gets no number.
fn around_the_next_number(pen: &mut Pen) -> io::Result<()> {
    for open in [false, true] {
        let side = pen.dice.pick(&SIDES);
        let (owner, other) = two_tenants(pen);
        let count = pen.dice.within(1..=5) as usize;
        pen.settings(PLAIN)?;
        if open {
            pen.open()?;
        }
        cancel_around_the_next(pen, owner)?;
        pen.take_all(owner, &vec![limit(side, DAY, 100, 2); count])?;
        pen.take(other, market(side, NOW, 1))?;
        for tenant in [other, owner, owner] {
            cancel_around_the_next(pen, tenant)?;
        }
        pen.take(other, limit(side, NOW, 100, 1))?;
        cancel_around_the_next(pen, other)?;
    }
    Ok(())
}

/// Cancels that wait while the number they name is given: behind the order in
/// its lane, and in another lane, where the rotation decides which is first.
fn given_while_it_waits(pen: &mut Pen) -> io::Result<()> {
    for open in [false, true] {
        let rests = limit(pen.dice.pick(&SIDES), DAY, 100, 2);
        let tenant = pen.tenant();
        pen.settings(PLAIN)?;
        if open {
            pen.open()?;
        }
        pen.submit(tenant, &[cancel(1), rests, cancel(1), cancel(1)])?;
        pen.turns(4)?;
        for owner in [3, 6] {
            let next = pen.last_number() + 1;
            pen.submit(owner, &[rests, rests])?;
            pen.submit(5, &[cancel(next), cancel(next + 1)])?;
            pen.turns(4)?;
        }
    }
    Ok(())
}

/// The numbers of a day under settings that are refused, then as those of the
/// day before: under new settings, and once some and all of them are given
/// again.
fn numbers_of_the_day_before(pen: &mut Pen) -> io::Result<()> {
    for open in [false, true] {
        let side = pen.dice.pick(&SIDES);
        let (owner, other) = two_tenants(pen);
        let rests = limit(side, DAY, 100, 2);
        let count = pen.dice.within(3..=7) as usize;
        pen.opened(PLAIN)?;
        pen.take_all(owner, &vec![rests; count])?;
        pen.take(other, limit(side.opposite(), NOW, 100, 3))?;
        let given = pen.last_number();
        pen.settings(with(PLAIN, &[(GRID, 4)]))?;
        cancel_each(pen, other, given)?;
        pen.settings(PLAIN)?;
        cancel_each(pen, owner, given)?;
        if open {
            pen.open()?;
        }
        cancel_each(pen, other, given)?;
        for orders in [count - 2, 3] {
            pen.take_all(owner, &vec![rests; orders])?;
            cancel_each(pen, other, given)?;
            cancel_each(pen, owner, given)?;
        }
    }
    Ok(())
}

/// Cancels by this tenant of every number given and of the one behind them.
fn cancel_each(pen: &mut Pen, tenant: u32, given: u32) -> io::Result<()> {
    let cancels: Vec<Numbers> = (1..=given + 1).map(cancel).collect();
    pen.take_all(tenant, &cancels)
}

/// Two random days of small orders by three tenants, and as many cancels of any
/// number up to the one past the next.
fn any_number_in_reach(pen: &mut Pen) -> io::Result<()> {
    for _ in 0..2 {
        let class = pen.either_class();
        pen.settings(with(PLAIN, &[(ALLOCATION, class), (PRINT, 100)]))?;
        let open_at = pen.dice.within(0..=30);
        for step in 0..40 {
            if step == open_at {
                pen.open()?;
            }
            let tenant = pen.dice.within(0..=2);
            let entry = order_or_cancel(pen);
            pen.take(tenant, entry)?;
        }
    }
    Ok(())
}

fn order_or_cancel(pen: &mut Pen) -> Numbers {
    if pen.dice.chance(50) {
        let last = pen.last_number();
        return cancel(pen.dice.within(1..=last + 2));
    }
    let side = pen.dice.pick(&SIDES);
    let life = pen.dice.pick(&[DAY, DAY, NOW]);
    let price = pen.dice.within(98..=102);
    limit(side, life, price, pen.dice.within(1..=4))
}
