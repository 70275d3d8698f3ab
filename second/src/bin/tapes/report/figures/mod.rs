//! What texts in figures reach: the right lines by their numbers, the refused
//! ones by the way in which they are wrong and by where they stand. All of it
//! is told from the text itself.

mod places;
mod right;
mod wrong;

use second::figures::{numbers, Events};

use super::{line_at, Counts, BUFFER};

/// The length above which a line is very long.
const LONG_LINE: usize = 70_000;

/// The names of all outcomes, in the order of the table.
fn names() -> Vec<String> {
    [right::names(), wrong::names(), places::names()].concat()
}

/// Reads texts and counts.
#[derive(Default)]
pub struct Report {
    counts: Counts,
    texts: u64,
    events: u64,
}

impl Report {
    pub fn read(&mut self, text: &[u8]) {
        self.texts += 1;
        let mut events = Events::new(text);
        let (mut place, mut tape_length) = (0, 0);
        // Reading from memory never fails.
        while let Ok(Some(event)) = events.event() {
            let line = line_at(text, place);
            match event {
                Ok(bytes) => {
                    self.right_line(line, place);
                    tape_length += bytes.len();
                }
                Err(refused) => {
                    wrong::witness(&mut self.counts, line);
                    return places::witness(&mut self.counts, text, place, refused.line);
                }
            }
            place += line.len();
        }
        right::witness_text(&mut self.counts, text, tape_length);
    }

    fn right_line(&mut self, line: &[u8], place: usize) {
        self.events += 1;
        let spelt = line.strip_suffix(b"\n").and_then(numbers);
        right::witness_event(&mut self.counts, &spelt.unwrap_or_default());
        right::witness_place(&mut self.counts, line, place);
    }

    /// The table, and whether nothing is missing.
    pub fn table(&self) -> (String, bool) {
        let read = format!("{} texts, {} events", self.texts, self.events);
        self.counts.table(&names(), &read)
    }
}

#[cfg(test)]
mod tests {
    use super::*;
    use crate::figures::{ways, Text};
    use crate::report::checks::{all_different, every_round, reached_once};

    #[test]
    fn every_round_reaches_every_outcome() {
        let read = |report: &mut Report, text: Text| report.read(&text.bytes);
        every_round(&ways(), read, Report::table);
    }

    #[test]
    fn what_is_not_there_is_missing() {
        let mut report = Report::default();
        report.read(b"2 100 105\n4\n5 5\n");
        let (table, complete) = report.table();
        assert!(!complete);
        let reached = [
            "written away",
            "written turn",
            "write 41 two events, open first",
            "write 41 in the last of several lines",
        ];
        reached_once(&table, &reached);
        assert!(table.contains("missing: write 41 empty line\n"));
        let last = table.lines().last().unwrap();
        assert!(last.starts_with("1 texts, 2 events, "), "{last}");
    }

    #[test]
    fn names_are_all_different() {
        all_different(names());
    }
}
