//! Order sheets, right, wrong and just beside right, for holding two programs
//! that read them against each other.
//!
//! A wrong line ends a sheet, so that each way to be wrong has a sheet of its
//! own.

mod faults;
mod orders;
mod whole;
mod wrong;

use orders::Order;

/// A sheet being written.
#[derive(Default)]
pub struct Sheet {
    pub bytes: Vec<u8>,
    lines: u64,
    ending: Ending,
}

/// How a sheet is to end.
#[derive(Clone, Copy, Debug, Default, PartialEq, Eq)]
enum Ending {
    #[default]
    Well,
    /// By this refusal at this line, the first.
    Refused(u32, u64),
    /// As chance has it.
    Unknown,
}

impl Sheet {
    fn order(&mut self, order: &Order) {
        self.lines += 1;
        self.bytes.extend(order.line());
        self.bytes.push(b'\n');
    }

    /// A line to be refused, which is given without its newline.
    fn wrong(&mut self, refusal: u32, line: &[u8]) {
        self.unended(refusal, line);
        self.bytes.push(b'\n');
    }

    /// A last line without its newline, refused for that or for its length.
    fn unended(&mut self, refusal: u32, line: &[u8]) {
        self.lines += 1;
        self.bytes.extend(line);
        if self.ending == Ending::Well {
            self.ending = Ending::Refused(refusal, self.lines);
        }
    }
}

/// A kind of sheet.
pub type Way = crate::ways::Way<Sheet>;

/// All ways: right sheets and sheets of a special shape first, then one for
/// each wrong line, then damage and chance.
pub fn ways() -> Vec<Way> {
    let mut ways = whole::all();
    ways.extend(wrong::all().into_iter().map(whole::around));
    ways.extend(whole::by_chance());
    ways
}

#[cfg(test)]
mod tests {
    use super::*;
    use crate::ways::checks::{by_seed, named_apart, rounds};
    use second::sheet::Submits;

    fn ending(sheet: &[u8]) -> Ending {
        let mut submits = Submits::new(sheet);
        loop {
            match submits.submit().unwrap() {
                Some(Ok(_)) => {}
                Some(Err(refused)) => {
                    return Ending::Refused(refused.refusal.number(), refused.line);
                }
                None => return Ending::Well,
            }
        }
    }

    #[test]
    fn a_sheet_is_refused_exactly_as_its_first_wrong_line_is() {
        let mut unknown = 0;
        rounds(&ways(), 12, |way, sheet| {
            if sheet.ending == Ending::Unknown {
                unknown += 1;
            } else {
                assert_eq!(ending(&sheet.bytes), sheet.ending, "{}", way.name);
            }
        });
        assert!(unknown < 200, "{unknown}");
    }

    #[test]
    fn a_seed_gives_the_same_sheet_again_and_another_seed_another() {
        let ways = ways();
        let differing = by_seed(&ways, |sheet| sheet.bytes);
        // Some ways have one sheet alone, as that of 0 bytes.
        assert!(ways.len() - differing < 5, "{differing}");
    }

    #[test]
    fn a_round_is_small() {
        let ways = ways();
        assert!(ways.len() <= 250, "{}", ways.len());
        let total: usize = ways.iter().map(|way| way.text(1).bytes.len()).sum();
        assert!(total < 3_000_000, "{total}");
    }

    #[test]
    fn no_name_is_another_or_starts_one() {
        named_apart(&ways());
    }
}
