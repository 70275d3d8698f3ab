//! What order sheets reach: the right lines by their fields, the refused ones by
//! the way in which they are wrong and by where they stand. All of it is told
//! from the sheet itself.

mod faults;
mod fields;
mod places;
mod right;
mod wrong;

use second::sheet::{RefusedLine, Submits};
use second::tape::Event;

use super::{line_at, Counts, BUFFER};

/// The names of all outcomes, in the order of the table.
fn names() -> Vec<String> {
    [right::names(), wrong::names(), places::names()].concat()
}

/// Reads sheets and counts.
#[derive(Default)]
pub struct Report {
    counts: Counts,
    sheets: u64,
    orders: u64,
}

impl Report {
    pub fn read(&mut self, sheet: &[u8]) {
        self.sheets += 1;
        let mut submits = Submits::new(sheet);
        let (mut place, mut tape) = (0, Vec::new());
        // Reading from memory never fails.
        while let Ok(Some(submit)) = submits.submit() {
            let line = line_at(sheet, place);
            match submit {
                Ok(submit) => self.right_line(line, place, &submit, &mut tape),
                Err(refused) => {
                    right::witness_tape(&mut self.counts, &tape);
                    return self.refused_line(sheet, place, refused);
                }
            }
            place += line.len();
        }
        right::witness_tape(&mut self.counts, &tape);
        right::witness_sheet(&mut self.counts, sheet);
    }

    fn right_line(&mut self, line: &[u8], place: usize, submit: &Event, tape: &mut Vec<u8>) {
        self.orders += 1;
        submit.write(tape);
        let order = line.strip_suffix(b"\n").unwrap_or(line);
        right::witness_order(&mut self.counts, order);
        right::witness_place(&mut self.counts, order, place);
    }

    fn refused_line(&mut self, sheet: &[u8], place: usize, refused: RefusedLine) {
        let refusal = refused.refusal.number();
        wrong::witness(&mut self.counts, line_at(sheet, place), refusal);
        places::witness(&mut self.counts, sheet, place, refused);
    }

    /// The table, and whether nothing is missing.
    pub fn table(&self) -> (String, bool) {
        let read = format!("{} sheets, {} orders", self.sheets, self.orders);
        self.counts.table(&names(), &read)
    }
}

#[cfg(test)]
mod tests {
    use super::*;
    use crate::report::checks::{all_different, every_round, reached_once};
    use crate::sheets::{ways, Sheet};

    #[test]
    fn every_round_reaches_every_outcome() {
        let read = |report: &mut Report, sheet: Sheet| report.read(&sheet.bytes);
        every_round(&ways(), read, Report::table);
    }

    #[test]
    fn what_is_not_there_is_missing() {
        let mut report = Report::default();
        report.read(b"3 BUY 500 LMT 12.50 DAY\n7 SELL 20 MKT - NOW\n3 BYU 500 LMT - DAY\n");
        let (table, complete) = report.table();
        assert!(!complete);
        let reached = [
            "read BUY LMT DAY",
            "read SELL MKT NOW",
            "read tenant 7",
            "read size of length 3",
            "sheet 43 side before a wrong price",
            "sheet refused in the last of several lines",
        ];
        reached_once(&table, &reached);
        assert!(table.contains("missing: sheet 44 empty line\n"));
        let last = table.lines().last().unwrap();
        assert!(last.starts_with("1 sheets, 2 orders, "), "{last}");
    }

    #[test]
    fn names_are_all_different() {
        all_different(names());
    }
}
