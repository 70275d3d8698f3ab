//! The rehearsal market, read from its paper a second time.
//!
//! One session holds one option series: settings, an away quote, a book, nine
//! tenant lanes, a rotation place and nine tallies. The book is a map of
//! levels for each side, each level a map of resting orders by number, and
//! each lane is a queue of entries.

pub mod book;
pub mod ending;
pub mod entry;
pub mod figures;
pub mod judging;
pub mod opening;
pub mod refusal;
pub mod session;
pub mod settings;
pub mod sheet;
pub mod tape;
pub mod units;
pub mod words;
pub mod writer;

#[cfg(test)]
mod examples;
