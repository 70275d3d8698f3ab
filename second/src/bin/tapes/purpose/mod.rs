//! Scenes written on purpose, each for outcomes that chance reaches seldom.

pub mod calls;
pub mod damage;
pub mod openings;
pub mod trading;
pub mod turned_down;

use std::io;

use second::entry::Side;

use crate::pen::Pen;

/// A few events that reach certain outcomes.
pub type Scene = fn(&mut Pen) -> io::Result<()>;

pub const SIDES: [Side; 2] = [Side::Buy, Side::Sell];

/// Writes every scene at least once, in a new order each time round, until as
/// many events are written as were asked for.
pub fn play(pen: &mut Pen, scenes: &[Scene]) -> io::Result<()> {
    let mut order = scenes.to_vec();
    loop {
        pen.dice.shuffle(&mut order);
        for scene in &order {
            scene(pen)?;
        }
        if pen.enough() {
            return Ok(());
        }
    }
}
