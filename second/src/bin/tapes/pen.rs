//! Writes a tape event by event, and follows it on a session of its own so
//! that the next event can be aimed at what stands in the book.

use std::io::{self, Write};

use second::entry::Side;
use second::session::{Series, Session};
use second::tape::{call, Event};

use crate::dice::Dice;

/// The six numbers of an entry.
pub type Numbers = [u32; 6];

/// The eleven numbers of a settings call.
pub type Values = [u32; 11];

pub const ALLOCATION: usize = 0;
pub const GRID: usize = 1;
pub const TYPE: usize = 2;
pub const STRIKE: usize = 3;
pub const DRILL: usize = 4;
pub const FAR: usize = 5;
pub const PERCENT: usize = 6;
pub const LEAST: usize = 7;
pub const GREATEST: usize = 8;
pub const PRINT: usize = 9;
pub const CLOSE: usize = 10;

pub const DAY: u32 = 1;
pub const NOW: u32 = 2;

/// The settings of the worked example.
pub const PLAIN: Values = [1, 1, 1, 10_000, 10, 20, 10, 25, 500, 0, 0];

/// `values` with some places replaced.
pub fn with(mut values: Values, replaced: &[(usize, u32)]) -> Values {
    for (place, value) in replaced {
        values[*place] = *value;
    }
    values
}

pub fn side_number(side: Side) -> u32 {
    match side {
        Side::Buy => 1,
        Side::Sell => 2,
    }
}

pub fn limit(side: Side, life: u32, price: u32, size: u32) -> Numbers {
    [1, side_number(side), life, price, size, 0]
}

pub fn market(side: Side, life: u32, size: u32) -> Numbers {
    [2, side_number(side), life, 0, size, 0]
}

pub fn cancel(number: u32) -> Numbers {
    [3, 0, 0, 0, 0, number]
}

/// The price `distance` cents further into the opposite side than `price`,
/// as an incoming order of this side sees it.
pub fn into(side: Side, price: u32, distance: u32) -> u32 {
    match side {
        Side::Buy => price + distance,
        Side::Sell => price.saturating_sub(distance),
    }
}

/// A tape being written.
pub struct Pen<'a> {
    out: &'a mut dyn Write,
    pub dice: Dice,
    session: Session,
    written: u64,
    asked: u64,
    buffer: Vec<u8>,
}

impl<'a> Pen<'a> {
    pub fn new(out: &'a mut dyn Write, seed: u64, asked: u64) -> Pen<'a> {
        Pen {
            out,
            dice: Dice::new(seed),
            session: Session::default(),
            written: 0,
            asked,
            buffer: Vec::new(),
        }
    }

    /// Whether as many events are written as were asked for.
    pub fn enough(&self) -> bool {
        self.written >= self.asked
    }

    pub fn asked(&self) -> u64 {
        self.asked
    }

    /// The series as it stands after the events written.
    pub fn series(&self) -> Option<&Series> {
        self.session.series()
    }

    pub fn event(&mut self, event: &Event) -> io::Result<()> {
        self.buffer.clear();
        event.write(&mut self.buffer);
        self.out.write_all(&self.buffer)?;
        call(&mut self.session, event);
        self.written += 1;
        Ok(())
    }

    /// Bytes that are no whole event; nothing is followed after them.
    pub fn bytes(&mut self, bytes: &[u8]) -> io::Result<()> {
        self.out.write_all(bytes)
    }

    pub fn settings(&mut self, values: Values) -> io::Result<()> {
        self.event(&Event::Settings(values))
    }

    pub fn away(&mut self, bid: u32, offer: u32) -> io::Result<()> {
        self.event(&Event::Away { bid, offer })
    }

    /// An away quote on the one side that an incoming order of `side` meets.
    pub fn away_against(&mut self, side: Side, price: u32) -> io::Result<()> {
        match side {
            Side::Buy => self.away(0, price),
            Side::Sell => self.away(price, 0),
        }
    }

    pub fn submit(&mut self, tenant: u32, entries: &[Numbers]) -> io::Result<()> {
        self.event(&Event::Submit {
            tenant,
            entries: entries.to_vec(),
        })
    }

    pub fn turn(&mut self) -> io::Result<()> {
        self.event(&Event::Turn)
    }

    pub fn turns(&mut self, count: usize) -> io::Result<()> {
        (0..count).try_for_each(|_| self.turn())
    }

    pub fn open(&mut self) -> io::Result<()> {
        self.event(&Event::Open)
    }

    /// Submits one entry and takes its turn, where no other entry waits.
    pub fn take(&mut self, tenant: u32, entry: Numbers) -> io::Result<()> {
        self.submit(tenant, &[entry])?;
        self.turn()
    }

    /// Submits many entries in bulks and takes their turns.
    pub fn take_all(&mut self, tenant: u32, entries: &[Numbers]) -> io::Result<()> {
        for bulk in entries.chunks(20) {
            self.submit(tenant, bulk)?;
            self.turns(bulk.len())?;
        }
        Ok(())
    }

    /// Settings and at once the opening of an empty book.
    pub fn opened(&mut self, values: Values) -> io::Result<()> {
        self.settings(values)?;
        self.open()
    }

    /// Either allocation.
    pub fn either_class(&mut self) -> u32 {
        self.dice.within(1..=2)
    }

    pub fn tenant(&mut self) -> u32 {
        self.dice.within(0..=8)
    }

    pub fn last_number(&self) -> u32 {
        self.series().map_or(0, Series::last_number)
    }
}
