//! Scenes for dispositions, bounds, conversions and the sharing of a level.

use std::io;

use second::entry::Side;

use super::{Scene, SIDES};
use crate::pen::{cancel, into, limit, market, with, Numbers, Pen, DAY, NOW, PLAIN};
use crate::pen::{ALLOCATION, DRILL, FAR, GREATEST, GRID, LEAST, PERCENT, STRIKE, TYPE};

pub const DISPOSITIONS: [Scene; 9] = [
    filled,
    rests,
    market_or_now,
    beyond_drill,
    at_away,
    cancelled,
    bounds,
    converted,
    ends_of_values,
];

pub const SHARING: [Scene; 5] = [
    marked_shares,
    random_shares,
    sweeps,
    own_orders,
    others_trade,
];

/// An open series of either class with a resting level against `side`; gives
/// its price. Drill price 6 cents and far price 40 cents into the book.
fn level_against(pen: &mut Pen, side: Side, size: u32) -> io::Result<u32> {
    let class = pen.either_class();
    let price = pen.dice.within(400..=900);
    let replaced = [(ALLOCATION, class), (DRILL, 6), (FAR, 40)];
    pen.opened(with(PLAIN, &replaced))?;
    if size > 0 {
        pen.take(0, limit(side.opposite(), DAY, price, size))?;
    }
    Ok(price)
}

fn filled(pen: &mut Pen) -> io::Result<()> {
    for side in SIDES {
        let price = level_against(pen, side, 40)?;
        for life in [DAY, NOW] {
            let size = pen.dice.within(1..=9);
            pen.take(1, limit(side, life, price, size))?;
            pen.take(2, market(side, life, size))?;
        }
    }
    Ok(())
}

fn rests(pen: &mut Pen) -> io::Result<()> {
    for side in SIDES {
        let price = level_against(pen, side, 3)?;
        pen.take(1, limit(side, DAY, into(side.opposite(), price, 1), 2))?;
        pen.take(1, limit(side, DAY, price, 5))?;
        let price = level_against(pen, side, 3)?;
        pen.take(1, limit(side, DAY, into(side, price, 6), 5))?;
    }
    Ok(())
}

fn market_or_now(pen: &mut Pen) -> io::Result<()> {
    for side in SIDES {
        for life in [DAY, NOW] {
            let price = level_against(pen, side, 3)?;
            pen.take(1, market(side, life, 5))?;
            pen.away_against(side, price)?;
            pen.take(1, market(side, life, 5))?;
        }
        let price = level_against(pen, side, 3)?;
        pen.take(1, limit(side, NOW, into(side.opposite(), price, 1), 5))?;
        pen.take(1, limit(side, NOW, price, 5))?;
    }
    Ok(())
}

fn beyond_drill(pen: &mut Pen) -> io::Result<()> {
    for side in SIDES {
        let price = level_against(pen, side, 3)?;
        let distance = pen.dice.within(7..=40);
        pen.take(1, limit(side, DAY, into(side, price, distance), 5))?;
        let price = level_against(pen, side, 0)?;
        pen.away_against(side, price)?;
        pen.take(1, limit(side, DAY, into(side, price, distance), 5))?;
        pen.take(1, limit(side, DAY, into(side, price, 6), 5))?;
    }
    Ok(())
}

fn at_away(pen: &mut Pen) -> io::Result<()> {
    for side in SIDES {
        let price = level_against(pen, side, 3)?;
        pen.take(0, limit(side.opposite(), DAY, into(side, price, 2), 4))?;
        pen.away_against(side, into(side, price, 1))?;
        pen.take(1, limit(side, DAY, into(side, price, 2), 9))?;
        pen.take(1, limit(side, DAY, into(side, price, 1), 9))?;
        pen.take(1, limit(side, DAY, into(side, price, 3), 9))?;
        pen.take(1, limit(side, DAY, price, 9))?;
    }
    Ok(())
}

/// Cancels before the opening, after it, and of a part-filled order.
fn cancelled(pen: &mut Pen) -> io::Result<()> {
    for side in SIDES {
        pen.settings(PLAIN)?;
        pen.take(1, limit(side, DAY, 100, 5))?;
        pen.take(1, cancel(1))?;
        pen.take(1, limit(side, DAY, 100, 5))?;
        pen.open()?;
        pen.take(2, limit(side.opposite(), NOW, 100, 2))?;
        pen.take(1, cancel(2))?;
        pen.take(1, limit(side, DAY, 100, 5))?;
        let last = pen.last_number();
        pen.take(1, cancel(last))?;
    }
    Ok(())
}

/// A ladder of levels against `side`, one cent apart, so that each bound in
/// turn stops an order before its end.
fn ladder(pen: &mut Pen, side: Side, price: u32, levels: u32) -> io::Result<()> {
    let rungs: Vec<Numbers> = (0..levels)
        .map(|step| limit(side.opposite(), DAY, into(side, price, step), 2))
        .collect();
    pen.take_all(0, &rungs)
}

fn bounds(pen: &mut Pen) -> io::Result<()> {
    for side in SIDES {
        let price = level_against(pen, side, 0)?;
        ladder(pen, side, price, 12)?;
        pen.take(1, limit(side, DAY, into(side, price, 1), 99))?;
        let price = into(side, price, 2);
        pen.take(1, limit(side, DAY, into(side, price, 20), 99))?;
        let price = level_against(pen, side, 0)?;
        ladder(pen, side, price, 12)?;
        pen.take(1, market(side, NOW, 99))?;
        let price = level_against(pen, side, 0)?;
        ladder(pen, side, price, 12)?;
        pen.away_against(side, into(side, price, 3))?;
        pen.take(1, market(side, DAY, 99))?;
    }
    strike_bound(pen)?;
    sell_near_zero(pen)
}

fn strike_bound(pen: &mut Pen) -> io::Result<()> {
    let price = pen.dice.within(100..=300);
    pen.opened(with(PLAIN, &[(TYPE, 2), (STRIKE, price + 3)]))?;
    ladder(pen, Side::Buy, price, 6)?;
    pen.take(1, market(Side::Buy, DAY, 99))?;
    pen.opened(with(PLAIN, &[(TYPE, 2), (STRIKE, 1)]))?;
    pen.take(0, limit(Side::Sell, DAY, 1, 2))?;
    pen.take(1, market(Side::Buy, NOW, 1))
}

/// Bids so low that NBB less D lies below 1, or exactly at 1.
fn sell_near_zero(pen: &mut Pen) -> io::Result<()> {
    for drill in [4, 5, 6, 1_000_000] {
        pen.opened(with(PLAIN, &[(DRILL, drill)]))?;
        pen.take_all(
            0,
            &[limit(Side::Buy, DAY, 5, 1), limit(Side::Buy, DAY, 1, 1)],
        )?;
        pen.take(1, limit(Side::Sell, DAY, 1, 3))?;
        pen.take(1, market(Side::Sell, DAY, 3))?;
    }
    Ok(())
}

/// Market sells without a bid: no offer, one of 50 and one below, in the book
/// or away, on each grid and of each life.
fn converted(pen: &mut Pen) -> io::Result<()> {
    for grid in 1..=3 {
        for life in [DAY, NOW] {
            pen.opened(with(PLAIN, &[(GRID, grid)]))?;
            pen.take(2, market(Side::Sell, life, 4))?;
            pen.away(0, 50)?;
            pen.take(2, market(Side::Sell, life, 4))?;
            let low = pen.dice.within(1..=49);
            pen.away(0, low)?;
            pen.take(2, market(Side::Sell, life, 4))?;
            pen.away(0, 0)?;
            pen.take(3, limit(Side::Sell, DAY, 50, 1))?;
            pen.take(2, market(Side::Sell, life, 4))?;
            pen.take(4, limit(Side::Buy, NOW, 10, 99))?;
        }
    }
    Ok(())
}

/// Prices 1 and 1,000,000 and sizes 1 and 999,999 on both sides.
fn ends_of_values(pen: &mut Pen) -> io::Result<()> {
    let wide = [
        (STRIKE, 1_000_000),
        (DRILL, 1_000_000),
        (FAR, 1_000_000),
        (PERCENT, 1_000),
        (LEAST, 0),
        (GREATEST, 1_000_000),
    ];
    for side in SIDES {
        for price in [1, 1_000_000] {
            let class = pen.either_class();
            pen.opened(with(with(PLAIN, &wide), &[(ALLOCATION, class)]))?;
            let resting =
                [999_999, 1, 999_999].map(|size| limit(side.opposite(), DAY, price, size));
            pen.take_all(0, &resting)?;
            pen.take(1, limit(side, NOW, price, 1))?;
            pen.take(1, limit(side, DAY, price, 999_999))?;
            pen.take(1, market(side, DAY, 999_999))?;
            pen.take(1, limit(side, DAY, price, 999_999))?;
        }
    }
    Ok(())
}

/// Rests orders of these sizes at one price against `side`, each of another
/// tenant, and sends an order of `quantity` at them.
fn share(pen: &mut Pen, side: Side, class: u32, sizes: &[u32], quantity: u32) -> io::Result<()> {
    let price = pen.dice.within(400..=900);
    pen.opened(with(PLAIN, &[(ALLOCATION, class)]))?;
    for size in sizes {
        let tenant = pen.tenant();
        pen.take(tenant, limit(side.opposite(), DAY, price, *size))?;
    }
    pen.take(8, limit(side, NOW, price, quantity))?;
    pen.take(8, limit(side, NOW, price, quantity))
}

fn marked_shares(pen: &mut Pen) -> io::Result<()> {
    let cases: [(&[u32], u32); 8] = [
        (&[5, 5, 5, 5], 10),
        (&[10, 30, 20], 7),
        (&[1, 1, 1], 1),
        (&[10, 20, 30], 6),
        (&[10, 20, 30], 60),
        (&[10, 20, 30], 61),
        (&[7, 7, 3], 12),
        (&[999_999, 999_998, 1], 999_999),
    ];
    for (sizes, quantity) in cases {
        for class in [1, 2] {
            let side = pen.dice.pick(&SIDES);
            share(pen, side, class, sizes, quantity)?;
        }
    }
    Ok(())
}

fn random_shares(pen: &mut Pen) -> io::Result<()> {
    for side in SIDES {
        for class in [1, 2, 2] {
            let count = pen.dice.within(2..=12);
            let most = pen.dice.pick(&[2, 5, 50]);
            let sizes: Vec<u32> = (0..count).map(|_| pen.dice.within(1..=most)).collect();
            let whole: u32 = sizes.iter().sum();
            let quantity = pen.dice.within(1..=whole);
            share(pen, side, class, &sizes, quantity)?;
        }
    }
    Ok(())
}

/// Orders through one to six levels of several resting orders each.
fn sweeps(pen: &mut Pen) -> io::Result<()> {
    for side in SIDES {
        for levels in [1, 2, 3, 4, 6] {
            let class = pen.either_class();
            pen.opened(with(PLAIN, &[(ALLOCATION, class)]))?;
            let mut whole = 0;
            for step in 0..levels {
                for _ in 0..pen.dice.within(1..=4) {
                    let size = pen.dice.within(1..=6);
                    let tenant = pen.tenant();
                    let price = into(side, 500, step);
                    pen.take(tenant, limit(side.opposite(), DAY, price, size))?;
                    whole += size;
                }
            }
            let more = pen.dice.within(0..=2);
            let life = pen.dice.pick(&[DAY, NOW]);
            pen.take(
                7,
                limit(side, life, into(side, 500, levels - 1), whole - 1 + more),
            )?;
        }
    }
    Ok(())
}

fn own_orders(pen: &mut Pen) -> io::Result<()> {
    for side in SIDES {
        let price = level_against(pen, side, 3)?;
        pen.take(0, limit(side, DAY, price, 5))?;
    }
    Ok(())
}

/// A tenant with 24 resting while the others trade around it.
fn others_trade(pen: &mut Pen) -> io::Result<()> {
    for side in SIDES {
        let price = level_against(pen, side, 5)?;
        let far_off = into(side.opposite(), price, 8);
        pen.take_all(6, &[limit(side, DAY, far_off, 1); 24])?;
        pen.take(1, limit(side, NOW, price, 2))?;
        pen.take(6, limit(side, NOW, price, 1))?;
        pen.take(6, limit(side, DAY, price, 1))?;
    }
    Ok(())
}
