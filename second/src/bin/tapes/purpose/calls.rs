//! Scenes for the refusals of settings, away and submit, and for the lanes.

use std::io;

use second::entry::Side;

use super::Scene;
use crate::pen::{cancel, limit, market, with, Numbers, Pen, Values, DAY, NOW, PLAIN};
use crate::pen::{ALLOCATION, CLOSE, DRILL, FAR, GREATEST, GRID, LEAST};
use crate::pen::{PERCENT, PRINT, STRIKE, TYPE};

pub const SETTINGS: [Scene; 3] = [values_outside, values_at_their_ends, settings_anew];
pub const SUBMITS: [Scene; 4] = [
    malformed_alone,
    malformed_in_bulk,
    lane_to_its_end,
    rotation,
];
pub const AWAYS: [Scene; 1] = [away_quotes];

/// For each settings value: its place, lowest and highest.
const ENDS: [(usize, u32, u32); 11] = [
    (ALLOCATION, 1, 2),
    (GRID, 1, 3),
    (TYPE, 1, 2),
    (STRIKE, 1, 1_000_000),
    (DRILL, 0, 1_000_000),
    (FAR, 0, 1_000_000),
    (PERCENT, 0, 1_000),
    (LEAST, 0, 500),
    (GREATEST, 25, 1_000_000),
    (PRINT, 0, 1_000_000),
    (CLOSE, 0, 1_000_000),
];

/// All calls before any settings are accepted; only at a tape's start.
pub fn before_settings(pen: &mut Pen) -> io::Result<()> {
    pen.turn()?;
    pen.open()?;
    pen.away(100, 110)?;
    pen.away(1_000_001, 110)?;
    pen.submit(0, &[limit(Side::Buy, DAY, 100, 1)])?;
    pen.submit(9, &[cancel(0)])?;
    values_outside(pen)?;
    pen.turn()?;
    pen.open()
}

fn values_outside(pen: &mut Pen) -> io::Result<()> {
    for (place, lowest, highest) in ENDS {
        let mut outside = vec![
            highest + 1,
            pen.dice.within(highest + 1..=u32::MAX),
            u32::MAX,
        ];
        outside.extend(lowest.checked_sub(1));
        for value in outside {
            pen.settings(with(PLAIN, &[(place, value)]))?;
        }
    }
    let several = std::array::from_fn(|_| pen.dice.within(1_000_001..=u32::MAX));
    pen.settings(several)
}

fn values_at_their_ends(pen: &mut Pen) -> io::Result<()> {
    for (place, lowest, highest) in ENDS {
        for value in [lowest, highest, pen.dice.within(lowest..=highest)] {
            pen.settings(with(PLAIN, &[(place, value)]))?;
        }
    }
    pen.settings(with(PLAIN, &[(GRID, 2), (LEAST, 0), (GREATEST, 0)]))?;
    pen.settings([
        2, 3, 2, 1_000_000, 1_000_000, 1_000_000, 1_000, 1_000_000, 1_000_000, 1_000_000, 1_000_000,
    ])?;
    let lowest: Values = [1, 1, 1, 1, 0, 0, 0, 0, 0, 0, 0];
    pen.settings(lowest)
}

/// Settings over a running series: refused ones leave it, accepted ones empty it.
fn settings_anew(pen: &mut Pen) -> io::Result<()> {
    pen.opened(PLAIN)?;
    pen.away(95, 105)?;
    pen.take(3, limit(Side::Buy, DAY, 100, 5))?;
    pen.submit(4, &[limit(Side::Sell, NOW, 100, 2), cancel(1)])?;
    pen.settings(with(PLAIN, &[(STRIKE, 0)]))?;
    pen.turn()?;
    pen.settings(PLAIN)?;
    pen.turn()?;
    pen.take(3, cancel(1))?;
    pen.take(3, limit(Side::Buy, DAY, 100, 5))?;
    pen.open()?;
    pen.open()
}

fn away_quotes(pen: &mut Pen) -> io::Result<()> {
    pen.settings(PLAIN)?;
    let low = pen.dice.within(1..=500_000);
    let high = pen.dice.within(low + 1..=1_000_000);
    let quotes = [
        (0, 0),
        (low, 0),
        (0, high),
        (low, high),
        (high, high),
        (high, low),
        (1, 1_000_000),
        (1_000_000, 1),
        (1_000_001, high),
        (low, 1_000_001),
        (1_000_001, 0),
        (0, 1_000_001),
        (u32::MAX, u32::MAX),
    ];
    for (bid, offer) in quotes {
        pen.away(bid, offer)?;
    }
    Ok(())
}

/// Every way of being malformed, each by one number alone.
fn malformed(pen: &mut Pen) -> Vec<Numbers> {
    let wild = pen.dice.within(4..=u32::MAX);
    let dear = pen.dice.within(1_000_001..=u32::MAX);
    let sound = limit(Side::Buy, DAY, 100, 5);
    let bare = market(Side::Sell, NOW, 5);
    let gone = cancel(7);
    let changes: [(Numbers, usize, u32); 27] = [
        (sound, 0, 0),
        (sound, 0, 4),
        (sound, 0, wild),
        (sound, 1, 0),
        (sound, 1, 3),
        (sound, 2, 0),
        (sound, 2, 3),
        (sound, 3, 0),
        (sound, 3, 1_000_001),
        (sound, 3, dear),
        (sound, 4, 0),
        (sound, 4, 1_000_000),
        (sound, 4, dear),
        (sound, 5, 1),
        (bare, 1, 0),
        (bare, 1, wild),
        (bare, 2, 0),
        (bare, 2, wild),
        (bare, 3, 100),
        (bare, 4, 0),
        (bare, 4, 1_000_000),
        (bare, 5, wild),
        (gone, 1, 1),
        (gone, 2, 2),
        (gone, 3, 100),
        (gone, 4, 5),
        (gone, 5, 0),
    ];
    changes
        .into_iter()
        .map(|(mut entry, place, value)| {
            entry[place] = value;
            entry
        })
        .collect()
}

fn malformed_alone(pen: &mut Pen) -> io::Result<()> {
    pen.settings(PLAIN)?;
    for entry in malformed(pen) {
        let tenant = pen.tenant();
        pen.submit(tenant, &[entry])?;
    }
    pen.turn()
}

/// A malformed entry first, between and last in a bulk, of a tenant outside,
/// and with the lane full.
fn malformed_in_bulk(pen: &mut Pen) -> io::Result<()> {
    pen.settings(PLAIN)?;
    let all = malformed(pen);
    for place in [0, 9, 19] {
        let mut bulk = [limit(Side::Buy, DAY, 100, 5); 20];
        bulk[place] = pen.dice.pick(&all);
        pen.submit(2, &bulk)?;
    }
    let some = pen.dice.pick(&all);
    pen.submit(9, &[some])?;
    fill_lane(pen, 2)?;
    pen.submit(2, &[some])?;
    pen.turn()
}

fn fill_lane(pen: &mut Pen, tenant: u32) -> io::Result<()> {
    for count in [20, 20, 20, 4] {
        pen.submit(tenant, &vec![cancel(1); count])?;
    }
    Ok(())
}

fn lane_to_its_end(pen: &mut Pen) -> io::Result<()> {
    pen.settings(PLAIN)?;
    let tenant = pen.tenant();
    pen.submit(tenant, &[cancel(1)])?;
    fill_lane(pen, tenant)?;
    pen.submit(tenant, &[cancel(1); 3])?;
    pen.submit(tenant, &[cancel(1)])?;
    pen.submit((tenant + 1) % 9, &[cancel(1); 20])?;
    pen.turns(2)?;
    pen.submit(tenant, &[cancel(1); 2])?;
    pen.submit(tenant, &[cancel(1)])?;
    let outside = pen.dice.within(9..=u32::MAX);
    pen.submit(outside, &[cancel(1)])?;
    pen.turns(9)
}

/// Lanes of uneven length, from a random place, until none has an entry.
fn rotation(pen: &mut Pen) -> io::Result<()> {
    pen.settings(PLAIN)?;
    pen.submit(8, &[cancel(1), cancel(1)])?;
    pen.submit(0, &[cancel(1)])?;
    pen.turns(3)?;
    let mut waiting = 0;
    for tenant in 0..9 {
        let count = pen.dice.pick(&[0, 0, 1, 2, 5]);
        if count > 0 {
            pen.submit(tenant, &vec![limit(Side::Buy, NOW, 100, 1); count])?;
            waiting += count;
        }
    }
    pen.turns(waiting + 1)
}
