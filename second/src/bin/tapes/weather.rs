//! Random days: settings, away quotes, entries, turns and openings, with the
//! prices close together so that trades happen.

use std::io;

use second::entry::Side;
use second::session::Series;

use crate::pen::{cancel, limit, market, with, Numbers, Pen, Values, DAY, NOW};
use crate::pen::{ALLOCATION, CLOSE, DRILL, FAR, GREATEST, GRID, LEAST};
use crate::pen::{PERCENT, PRINT, STRIKE, TYPE};

/// What a random day is like. Chances are in a hundred.
#[derive(Clone, Copy, Debug)]
pub struct Weather {
    pub allocation: Option<u32>,
    pub grid: Option<u32>,
    /// The price around which orders come.
    pub centre: (u32, u32),
    /// How far from it they come.
    pub reach: u32,
    /// How far buys stay below it and sells above it.
    pub apart: u32,
    pub sizes: (u32, u32),
    pub drill: (u32, u32),
    pub far: (u32, u32),
    /// How many events go by before the opening.
    pub before_open: (u32, u32),
    pub away_moves: u32,
    pub now: u32,
    pub markets: u32,
    pub cancels: u32,
    pub bulks: u32,
    pub wrong: u32,
    /// Events until settings come anew, none for never.
    pub anew_after: Option<u32>,
    /// The one tenant that sends bulks while the others send single entries.
    pub bulk_tenant: Option<u32>,
}

pub const MIXED: Weather = Weather {
    allocation: None,
    grid: None,
    centre: (60, 700),
    reach: 25,
    apart: 3,
    sizes: (1, 60),
    drill: (0, 20),
    far: (5, 60),
    before_open: (0, 120),
    away_moves: 6,
    now: 25,
    markets: 12,
    cancels: 12,
    bulks: 15,
    wrong: 3,
    anew_after: Some(4_000),
    bulk_tenant: None,
};

pub const DEEP: Weather = Weather {
    centre: (2_000, 9_000),
    grid: Some(1),
    reach: 150,
    apart: 35,
    sizes: (1, 300),
    drill: (200, 400),
    far: (300, 600),
    before_open: (100, 300),
    away_moves: 1,
    now: 30,
    markets: 6,
    cancels: 28,
    bulks: 25,
    wrong: 0,
    anew_after: None,
    ..MIXED
};

pub const CROWDED: Weather = Weather {
    allocation: Some(2),
    grid: Some(1),
    centre: (200, 900),
    reach: 2,
    apart: 1,
    sizes: (1, 30),
    drill: (5, 20),
    far: (20, 60),
    before_open: (0, 200),
    away_moves: 1,
    now: 35,
    markets: 8,
    cancels: 8,
    bulks: 10,
    wrong: 0,
    anew_after: None,
    ..MIXED
};

pub const BULK: Weather = Weather {
    bulks: 0,
    bulk_tenant: Some(4),
    centre: (300, 1_500),
    reach: 15,
    apart: 4,
    sizes: (1, 50),
    cancels: 15,
    anew_after: None,
    wrong: 0,
    ..MIXED
};

pub const THIN: Weather = Weather {
    centre: (1, 60),
    reach: 12,
    apart: 0,
    sizes: (1, 5),
    drill: (0, 8),
    far: (0, 20),
    before_open: (0, 20),
    away_moves: 15,
    now: 30,
    markets: 35,
    cancels: 20,
    bulks: 3,
    anew_after: Some(150),
    ..MIXED
};

pub const AWAY: Weather = Weather {
    away_moves: 35,
    reach: 12,
    apart: 1,
    drill: (0, 6),
    far: (2, 15),
    before_open: (0, 10),
    anew_after: Some(400),
    ..MIXED
};

pub const PREOPEN: Weather = Weather {
    before_open: (30, 260),
    anew_after: Some(300),
    away_moves: 4,
    now: 4,
    markets: 2,
    cancels: 5,
    apart: 0,
    reach: 18,
    ..MIXED
};

pub const NOISE: Weather = Weather {
    centre: (1, 1_000_000),
    reach: 400,
    apart: 0,
    sizes: (1, 999_999),
    drill: (0, 1_000_000),
    far: (0, 1_000_000),
    before_open: (0, 60),
    away_moves: 12,
    now: 40,
    markets: 25,
    cancels: 25,
    bulks: 25,
    wrong: 25,
    anew_after: Some(120),
    ..MIXED
};

/// Writes random days until as many events are written as were asked for.
pub fn blow(pen: &mut Pen, weather: &Weather) -> io::Result<()> {
    while !pen.enough() {
        let mut day = Day::begin(pen, weather)?;
        while !pen.enough() && day.goes_on() {
            day.step(pen)?;
        }
    }
    Ok(())
}

/// One random day under its settings.
struct Day<'w> {
    weather: &'w Weather,
    centre: u32,
    grid: u32,
    past: u32,
    open_at: u32,
    last: u32,
}

impl<'w> Day<'w> {
    fn begin(pen: &mut Pen, weather: &'w Weather) -> io::Result<Day<'w>> {
        let centre = pen.dice.within(weather.centre.0..=weather.centre.1);
        let values = settings(pen, weather, centre);
        pen.settings(values)?;
        let open_at = pen
            .dice
            .within(weather.before_open.0..=weather.before_open.1);
        let last = weather
            .anew_after
            .map_or(u32::MAX, |most| pen.dice.within(most / 2..=most));
        Ok(Day {
            weather,
            centre,
            grid: values[GRID],
            past: 0,
            open_at,
            last,
        })
    }

    fn goes_on(&self) -> bool {
        self.past < self.last
    }

    fn step(&mut self, pen: &mut Pen) -> io::Result<()> {
        self.past = self.past.saturating_add(1);
        self.drift(pen);
        if self.past == self.open_at {
            return pen.open();
        }
        if pen.dice.chance(self.weather.away_moves) {
            return self.move_away(pen);
        }
        if pen.dice.chance(1) && pen.dice.chance(30) {
            return pen.open();
        }
        self.submit_or_turn(pen)
    }

    /// The centre wanders a cent now and then.
    fn drift(&mut self, pen: &mut Pen) {
        match pen.dice.within(0..=39) {
            0 => self.centre = (self.centre + 1).min(1_000_000),
            1 => self.centre = self.centre.saturating_sub(1).max(1),
            _ => {}
        }
    }

    fn move_away(&self, pen: &mut Pen) -> io::Result<()> {
        let bid = self
            .price(pen, Side::Buy)
            .saturating_sub(self.weather.apart);
        let offer = self.price(pen, Side::Sell) + self.weather.apart;
        let (bid, offer) = match pen.dice.within(0..=9) {
            0 => (0, 0),
            1 => (bid, 0),
            2 => (0, offer),
            3 if pen.dice.chance(self.weather.wrong) => (1_000_001, offer),
            4 => (offer.min(1_000_000), bid),
            _ => (bid, offer.min(1_000_000)),
        };
        pen.away(bid, offer)
    }

    /// Turns are taken about as fast as entries come in, so that lanes fill
    /// and empty again.
    fn submit_or_turn(&self, pen: &mut Pen) -> io::Result<()> {
        let waiting: usize = pen
            .series()
            .map_or(0, |series| (0..9).map(|lane| series.waiting(lane)).sum());
        let turn_chance = match waiting {
            0 => 2,
            1..=8 => 45,
            9..=60 => 70,
            _ => 92,
        };
        if pen.dice.chance(turn_chance) {
            pen.turn()
        } else {
            self.submit(pen)
        }
    }

    fn submit(&self, pen: &mut Pen) -> io::Result<()> {
        let tenant = if pen.dice.chance(self.weather.wrong) && pen.dice.chance(10) {
            pen.dice.pick(&[9, 10, 255, u32::MAX])
        } else {
            pen.tenant()
        };
        let bulks = self.weather.bulk_tenant == Some(tenant);
        let count = if bulks || pen.dice.chance(self.weather.bulks) {
            pen.dice.within(2..=20)
        } else {
            1
        };
        let entries: Vec<Numbers> = (0..count).map(|_| self.entry(pen, tenant)).collect();
        pen.submit(tenant, &entries)
    }

    fn entry(&self, pen: &mut Pen, tenant: u32) -> Numbers {
        if pen.dice.chance(self.weather.wrong) && pen.dice.chance(5) {
            return std::array::from_fn(|_| pen.dice.pick(&[0, 1, 2, 3, 4, 1_000_001]));
        }
        if pen.dice.chance(self.weather.cancels) {
            return cancel(cancelled_number(pen, tenant));
        }
        let side = pen.dice.pick(&[Side::Buy, Side::Sell]);
        let life = if pen.dice.chance(self.weather.now) {
            NOW
        } else {
            DAY
        };
        let size = self.size(pen);
        if pen.dice.chance(self.weather.markets) {
            market(side, life, size)
        } else {
            limit(side, life, self.price(pen, side), size)
        }
    }

    fn size(&self, pen: &mut Pen) -> u32 {
        let (least, most) = self.weather.sizes;
        if pen.dice.chance(40) {
            pen.dice.within(least..=least.saturating_add(4).min(most))
        } else {
            pen.dice.within(least..=most)
        }
    }

    fn price(&self, pen: &mut Pen, side: Side) -> u32 {
        let near = self.weather.reach / 3;
        let reach = if pen.dice.chance(70) {
            near
        } else {
            self.weather.reach
        };
        let offset = pen.dice.within(0..=2 * reach);
        let aimed = (self.centre + offset).saturating_sub(reach);
        let apart = match side {
            Side::Buy => aimed.saturating_sub(self.weather.apart),
            Side::Sell => aimed + self.weather.apart,
        };
        let price = apart.clamp(1, 1_000_000);
        if pen.dice.chance(96) {
            on_grid(self.grid, price)
        } else {
            price
        }
    }
}

/// The nearest price on the grid at or below, or the lowest there is.
fn on_grid(grid: u32, price: u32) -> u32 {
    let step = match (grid, price < 300) {
        (2, false) | (3, true) => 5,
        (3, false) => 10,
        _ => 1,
    };
    (price / step * step).max(step)
}

fn settings(pen: &mut Pen, weather: &Weather, centre: u32) -> Values {
    let any = pen.dice.within(1..=2);
    let grid = pen.dice.within(1..=3);
    let values = [
        (ALLOCATION, weather.allocation.unwrap_or(any)),
        (GRID, weather.grid.unwrap_or(grid)),
        (TYPE, pen.dice.pick(&[1, 1, 2])),
        (STRIKE, (centre + pen.dice.within(0..=300)).min(1_000_000)),
        (DRILL, pen.dice.within(weather.drill.0..=weather.drill.1)),
        (FAR, pen.dice.within(weather.far.0..=weather.far.1)),
        (PERCENT, pen.dice.pick(&[0, 5, 10, 20, 100, 1_000])),
        (LEAST, pen.dice.pick(&[0, 1, 2, 5, 10, 25])),
        (GREATEST, pen.dice.pick(&[25, 30, 50, 500, 1_000_000])),
        (PRINT, near_or_none(pen, centre)),
        (CLOSE, near_or_none(pen, centre)),
    ];
    let mut chosen = with([1; 11], &values);
    if pen.dice.chance(weather.wrong) && pen.dice.chance(20) {
        chosen[pen.dice.within(0..=10) as usize] = 1_000_001;
    }
    chosen
}

fn near_or_none(pen: &mut Pen, centre: u32) -> u32 {
    let offset = pen.dice.within(0..=60);
    let near = (centre + offset).saturating_sub(30).min(1_000_000);
    pen.dice.pick(&[0, near, near])
}

/// Mostly the number of an order that rests, often the tenant's own.
fn cancelled_number(pen: &mut Pen, tenant: u32) -> u32 {
    let own = pen.dice.chance(70);
    let wanted = pen.dice.roll();
    let resting: Vec<u32> = pen
        .series()
        .map(|series| resting_numbers(series, own.then_some(tenant)))
        .unwrap_or_default();
    let given = pen.last_number();
    if resting.is_empty() || pen.dice.chance(10) {
        return pen.dice.within(1..=given.saturating_add(3));
    }
    let place = usize::try_from(wanted).unwrap_or(0) % resting.len();
    resting[place]
}

fn resting_numbers(series: &Series, tenant: Option<u32>) -> Vec<u32> {
    let book = series.book();
    book.numbers()
        .filter(|number| match tenant {
            None => true,
            Some(tenant) => book
                .order(*number)
                .is_some_and(|order| u32::try_from(order.tenant) == Ok(tenant)),
        })
        .collect()
}
