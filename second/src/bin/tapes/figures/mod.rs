//! Texts in figures, right, wrong and just beside right, for holding two
//! programs that write tapes against each other.
//!
//! A wrong line ends a text, so that each way to be wrong has a text of its
//! own. The event numbers 6 to 13 are none of them: document 02 gives them a
//! meaning.

mod events;
mod texts;
mod wrong;

use second::figures::line;

/// A text being written.
#[derive(Default)]
pub struct Text {
    pub bytes: Vec<u8>,
    lines: u64,
    /// The line at which it is to be refused, the first wrong one.
    refused: Option<u64>,
}

impl Text {
    fn event(&mut self, numbers: &[u32]) {
        self.lines += 1;
        self.bytes.extend(line(numbers).into_bytes());
        self.bytes.push(b'\n');
    }

    /// A wrong line, which is given without its newline.
    fn wrong(&mut self, line: &[u8]) {
        self.unended(line);
        self.bytes.push(b'\n');
    }

    /// A last line without its newline, which is wrong for that alone.
    fn unended(&mut self, line: &[u8]) {
        self.lines += 1;
        self.refused.get_or_insert(self.lines);
        self.bytes.extend(line);
    }
}

/// A kind of text in figures.
pub type Way = crate::ways::Way<Text>;

/// All ways: right texts and texts of a special shape first, then one for each
/// wrong line.
pub fn ways() -> Vec<Way> {
    let mut ways = texts::all();
    ways.extend(wrong::all().into_iter().map(texts::around));
    ways
}

#[cfg(test)]
mod tests {
    use super::*;
    use crate::ways::checks::{by_seed, named_apart, rounds};
    use second::figures::{numbers, Events};

    #[test]
    fn a_text_is_refused_exactly_at_its_wrong_line() {
        rounds(&ways(), 2, |way, text| {
            let mut events = Events::new(text.bytes.as_slice());
            let refused = loop {
                match events.event().unwrap() {
                    Some(Ok(_)) => {}
                    Some(Err(refused)) => break Some(refused.line),
                    None => break None,
                }
            };
            assert_eq!(refused, text.refused, "{}", way.name);
        });
    }

    #[test]
    fn event_numbers_are_those_of_today_or_those_that_stay_unknown() {
        rounds(&ways(), 2, |way, text| {
            for line in text.bytes.split(|byte| *byte == b'\n') {
                let event = numbers(line).and_then(|numbers| numbers.first().copied());
                assert!(!matches!(event, Some(6..=13)), "{}", way.name);
            }
        });
    }

    #[test]
    fn a_seed_gives_the_same_text_again_and_another_seed_another() {
        let ways = ways();
        let differing = by_seed(&ways, |text| text.bytes);
        // Some ways have one text alone, as that of 0 bytes.
        assert!(ways.len() - differing < 20, "{differing}");
    }

    #[test]
    fn a_round_is_small() {
        let total: usize = ways().iter().map(|way| way.text(1).bytes.len()).sum();
        assert!(total < 2_000_000, "{total}");
    }

    #[test]
    fn no_name_is_another_or_starts_one() {
        named_apart(&ways());
    }
}
