//! What tapes reach: a count of every outcome, and the ones that are missing.
//!
//! 19 and 35 are not among them: each needs more than four thousand million
//! turns.

mod calls;
mod damage;
pub mod figures;
mod openings;
pub mod sheets;
mod turns;

use std::collections::BTreeMap;
use std::fmt::Write;

use second::session::Session;
use second::settings::Grid;
use second::tape::{call, Answer, Event, Reader};
use second::units::Cents;

/// As many bytes as a program may well read at a time.
const BUFFER: usize = 65_536;

/// The line of a text that starts at this place, with its newline if it has one.
fn line_at(text: &[u8], place: usize) -> &[u8] {
    let mut lines = text[place..].split_inclusive(|byte| *byte == b'\n');
    lines.next().unwrap_or_default()
}

/// How often each outcome was reached, by name.
#[derive(Default)]
pub struct Counts {
    reached: BTreeMap<String, u64>,
}

impl Counts {
    pub fn add(&mut self, name: impl Into<String>) {
        *self.reached.entry(name.into()).or_default() += 1;
    }

    pub fn add_if(&mut self, met: bool, name: impl Into<String>) {
        if met {
            self.add(name);
        }
    }

    fn of(&self, name: &str) -> u64 {
        self.reached.get(name).copied().unwrap_or(0)
    }

    /// The table of the outcomes named, the last line starting with what was
    /// `read`; and whether nothing is missing.
    fn table(&self, names: &[String], read: &str) -> (String, bool) {
        let mut table = String::new();
        for name in names {
            // Writing to a string never fails.
            let _ = writeln!(table, "{:>9}  {name}", self.of(name));
        }
        let missing: Vec<&String> = names.iter().filter(|name| self.of(name) == 0).collect();
        for name in &missing {
            let _ = writeln!(table, "missing: {name}");
        }
        let unlisted: Vec<&String> = self
            .reached
            .keys()
            .filter(|name| !names.contains(name))
            .collect();
        for name in &unlisted {
            let _ = writeln!(table, "unlisted: {name}");
        }
        let (all, missed) = (names.len(), missing.len());
        let _ = writeln!(table, "{read}, {all} outcomes, {missed} missing");
        (table, missing.is_empty() && unlisted.is_empty())
    }
}

/// The number of a grid, told by its steps.
fn grid_number(grid: Grid) -> u32 {
    match (grid.step_at(Cents(299)), grid.step_at(Cents(300))) {
        (1, 1) => 1,
        (1, _) => 2,
        _ => 3,
    }
}

/// The stretch of a grid that a price lies in, on either side of the turn.
fn stretch_name(grid: Grid, price: Cents) -> String {
    let half = if price < Cents(300) { "below" } else { "from" };
    format!("grid {} {half} 300", grid_number(grid))
}

/// The names of all outcomes, in the order of the table.
fn names() -> Vec<String> {
    [
        calls::names(),
        turns::names(),
        openings::names(),
        damage::names(),
    ]
    .concat()
}

/// Replays tapes and counts.
#[derive(Default)]
pub struct Report {
    counts: Counts,
    tapes: u64,
    events: u64,
}

impl Report {
    pub fn replay(&mut self, tape: &[u8]) {
        self.tapes += 1;
        let mut session = Session::default();
        let mut history = turns::History::default();
        let mut reader = Reader::new(tape);
        loop {
            let start = reader.place();
            match reader.event() {
                Ok(Some(event)) => self.witness(&mut session, &mut history, &event),
                Ok(None) => {
                    self.counts.add("end");
                    self.counts.add_if(tape.is_empty(), "end of an empty tape");
                    return;
                }
                Err(refused) => return damage::witness(&mut self.counts, tape, start, refused),
            }
        }
    }

    fn witness(&mut self, session: &mut Session, history: &mut turns::History, event: &Event) {
        self.events += 1;
        let before = session.clone();
        let answer = call(session, event);
        let counts = &mut self.counts;
        match (event, &answer) {
            (Event::Settings(values), Answer::Settings(outcome)) => {
                calls::settings(counts, &before, values, *outcome);
                if outcome.is_ok() {
                    *history = turns::History::new_day(before.series());
                }
            }
            (Event::Away { bid, offer }, Answer::Away(outcome)) => {
                calls::away(counts, *bid, *offer, *outcome);
            }
            (Event::Submit { tenant, entries }, Answer::Submit(outcome)) => {
                calls::submit(counts, &before, *tenant, entries, *outcome);
            }
            (Event::Turn, Answer::Turn(outcome)) => {
                turns::witness(counts, history, before.series(), session.series(), outcome);
            }
            (Event::Open, Answer::Open(outcome)) => {
                openings::witness(counts, before.series(), outcome);
                if let Ok(opening) = outcome {
                    history.opened(opening, session.series());
                }
            }
            _ => {}
        }
    }

    /// The table, and whether nothing is missing.
    pub fn table(&self) -> (String, bool) {
        let read = format!("{} tapes, {} events", self.tapes, self.events);
        self.counts.table(&names(), &read)
    }
}

#[cfg(test)]
pub mod checks {
    use crate::ways::{round, Way};

    /// Checks that no name is another.
    pub fn all_different(mut names: Vec<String>) {
        let count = names.len();
        names.sort();
        names.dedup();
        assert_eq!(names.len(), count);
    }

    /// Checks that each of these names has a count of one in the table, and
    /// that none is missing.
    pub fn reached_once(table: &str, names: &[&str]) {
        for name in names {
            assert!(table.contains(&format!("        1  {name}\n")), "{name}");
            assert!(!table.contains(&format!("missing: {name}\n")), "{name}");
        }
    }

    /// Checks that one round of the ways is enough for a whole report, with
    /// each of the first twelve seeds.
    pub fn every_round<T, R: Default>(
        ways: &[Way<T>],
        read: impl Fn(&mut R, T),
        table: impl Fn(&R) -> (String, bool),
    ) {
        for seed in 1..=12 {
            let mut report = R::default();
            for (way, seed) in round(ways, ways.len() as u64, seed) {
                read(&mut report, way.text(seed));
            }
            let (table, complete) = table(&report);
            assert!(complete, "seed {seed}: {table}");
        }
    }
}

#[cfg(test)]
mod tests {
    use super::checks::all_different;
    use super::*;
    use crate::flavours::{named, round};

    fn replay(report: &mut Report, count: u64, flavour: Option<&str>) {
        let only = flavour.and_then(named);
        for (flavour, seed) in round(count, 1, only) {
            let mut tape = Vec::new();
            flavour.write(&mut tape, seed, None).unwrap();
            report.replay(&tape);
        }
    }

    #[test]
    fn the_flavours_reach_every_outcome() {
        let mut report = Report::default();
        report.replay(&[]);
        replay(&mut report, 17 * 8, None);
        replay(&mut report, 90, Some("damaged"));
        let (table, complete) = report.table();
        assert!(complete, "{table}");
    }

    #[test]
    fn names_are_all_different() {
        all_different(names());
    }
}
