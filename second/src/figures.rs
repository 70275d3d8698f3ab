//! A tape in figures: one event a line, its numbers in decimal with one space
//! between, a newline behind each line.
//!
//! Desks send such texts and the writer makes a tape of them. A line is either
//! the numbers of exactly one event or it is refused; nothing in a text is
//! passed over, no remark, no empty line and no second space.

use std::fmt::{self, Display, Formatter, Write};
use std::io::{self, BufRead, Read};

use crate::tape::Reader;
use crate::writer::{written, WriteRefusal, MOST_NUMBERS};

/// The most bytes of a line that is an event: ten figures a number, and a space
/// or the newline behind each. What goes on beyond is no event, however it may
/// end, so that no more of it is read.
const LONGEST_LINE: u64 = 11 * MOST_NUMBERS as u64;

/// A refused line: why, and which, counted from 1.
#[derive(Clone, Copy, Debug, PartialEq, Eq)]
pub struct RefusedLine {
    pub refusal: WriteRefusal,
    pub line: u64,
}

impl Display for RefusedLine {
    fn fmt(&self, told: &mut Formatter) -> fmt::Result {
        write!(told, "write {} {}", self.refusal.number(), self.line)
    }
}

/// The numbers that a line spells, the line without its newline.
pub fn numbers(line: &[u8]) -> Option<Vec<u32>> {
    line.split(|byte| *byte == b' ').map(number).collect()
}

/// One number in its one right spelling.
fn number(figures: &[u8]) -> Option<u32> {
    match figures {
        [b'0'] => Some(0),
        [b'1'..=b'9', ..] => value(figures),
        _ => None,
    }
}

/// What the figures spell; none for a byte that is no figure and for a value
/// that the tape has no number for.
fn value(figures: &[u8]) -> Option<u32> {
    figures.iter().try_fold(0_u32, |value, figure| {
        let digit = char::from(*figure).to_digit(10)?;
        value.checked_mul(10)?.checked_add(digit)
    })
}

/// The line that spells the numbers, without its newline.
pub fn line(numbers: &[u32]) -> String {
    let figures: Vec<String> = numbers.iter().map(u32::to_string).collect();
    figures.join(" ")
}

/// The text of a tape, as far as it can be read.
pub fn show(tape: &[u8]) -> String {
    let mut text = String::new();
    let mut reader = Reader::new(tape);
    while let Ok(Some(event)) = reader.event() {
        // Writing to a string never fails.
        let _ = writeln!(text, "{}", line(&event.numbers()));
    }
    text
}

/// Reads a text line by line and gives the bytes of each event, until a line is
/// refused or the text ends.
pub struct Events<R> {
    text: R,
    lines: u64,
}

impl<R: BufRead> Events<R> {
    pub fn new(text: R) -> Events<R> {
        Events { text, lines: 0 }
    }

    /// The bytes of the next line's event, or none where the text ends.
    pub fn event(&mut self) -> io::Result<Option<Result<Vec<u8>, RefusedLine>>> {
        let mut line = Vec::new();
        let text = self.text.by_ref();
        if text.take(LONGEST_LINE).read_until(b'\n', &mut line)? == 0 {
            return Ok(None);
        }
        self.lines += 1;
        let refused = |refusal| RefusedLine {
            refusal,
            line: self.lines,
        };
        Ok(Some(event_of(&line).map_err(refused)))
    }
}

/// The bytes of a line's event. A line that does not end in a newline, because
/// the text ends in it or because it is too long, is none.
fn event_of(line: &[u8]) -> Result<Vec<u8>, WriteRefusal> {
    let spelt = match line {
        [figures @ .., b'\n'] => numbers(figures),
        _ => None,
    };
    written(&spelt.ok_or(WriteRefusal::NotOneEvent)?)
}

#[cfg(test)]
mod tests {
    use super::*;
    use std::io::{BufReader, ErrorKind};

    const REFUSED: Result<Vec<u8>, WriteRefusal> = Err(WriteRefusal::NotOneEvent);

    /// The tape of a text, and the line at which it is refused.
    fn tape_of(text: impl BufRead) -> (Vec<u8>, Option<RefusedLine>) {
        let mut events = Events::new(text);
        let mut tape = Vec::new();
        loop {
            match events.event().expect("memory") {
                Some(Ok(event)) => tape.extend(event),
                Some(Err(refused)) => return (tape, Some(refused)),
                None => return (tape, None),
            }
        }
    }

    fn refused_at(line: u64) -> Option<RefusedLine> {
        let refusal = WriteRefusal::NotOneEvent;
        Some(RefusedLine { refusal, line })
    }

    #[test]
    fn a_number_has_one_spelling() {
        for value in [0, 1, 9, 10, 127, 128, 4_294_967_294, u32::MAX] {
            assert_eq!(number(value.to_string().as_bytes()), Some(value));
        }
        let wrong = [
            "",
            "00",
            "01",
            "0100",
            "04294967295",
            "4294967296",
            "4294967300",
            "9999999999",
            "42949672950",
            "18446744073709551616",
            "18446744073709551620",
            "+1",
            "-1",
            "-0",
            "1.",
            "0x4",
            "1e3",
            "1_000",
            "4\r",
            "\t4",
            "4\0",
            "\u{664}",
            "\u{ff14}",
        ];
        for figures in wrong {
            assert_eq!(number(figures.as_bytes()), None, "{figures:?}");
        }
        for byte in (0..=255).filter(|byte: &u8| !byte.is_ascii_digit()) {
            assert_eq!(number(&[byte]), None, "{byte}");
            assert_eq!(number(&[b'4', byte]), None, "{byte}");
        }
    }

    #[test]
    fn numbers_have_one_space_between() {
        assert_eq!(numbers(b"2 100 105"), Some(vec![2, 100, 105]));
        assert_eq!(numbers(b"4"), Some(vec![4]));
        let wrong = [
            "",
            " ",
            " 4",
            "4 ",
            "2  100 105",
            "2\t100 105",
            "2 100 105\n",
        ];
        for line in wrong {
            assert_eq!(numbers(line.as_bytes()), None, "{line:?}");
        }
    }

    #[test]
    fn a_line_is_one_event_and_a_newline() {
        assert_eq!(event_of(b"2 300 0\n"), Ok(vec![2, 0xac, 0x02, 0]));
        for line in ["4", "", "\n", "4 \n", "4 4\n", "14\n", "3 0 0\n", "4\r\n"] {
            assert_eq!(event_of(line.as_bytes()), REFUSED, "{line:?}");
        }
    }

    #[test]
    fn lines_are_counted_from_1_and_the_first_refused_ends_the_text() {
        assert_eq!(tape_of(&b""[..]), (vec![], None));
        assert_eq!(tape_of(&b"4\n5\n"[..]), (vec![4, 5], None));
        assert_eq!(tape_of(&b"\n4\n"[..]), (vec![], refused_at(1)));
        assert_eq!(tape_of(&b"4\n5\n4"[..]), (vec![4, 5], refused_at(3)));
        let many = "4\n".repeat(9_999) + "x\ny\n";
        assert_eq!(
            tape_of(many.as_bytes()),
            (vec![4; 9_999], refused_at(10_000))
        );
    }

    #[test]
    fn the_longest_line_of_an_event_is_read() {
        let longest = line(&[vec![3, u32::MAX, 20], vec![u32::MAX; 120]].concat()) + "\n";
        assert!(longest.len() as u64 <= LONGEST_LINE);
        let (tape, refused) = tape_of(longest.as_bytes());
        assert_eq!((tape.len(), refused), (607, None));
    }

    #[test]
    fn a_line_too_long_is_refused_once_and_not_read_as_two() {
        // Were the line cut where reading stops, a turn would follow.
        let cut = usize::try_from(LONGEST_LINE).expect("a small number");
        for length in [cut - 1, cut, cut + 1, 70_000] {
            let text = format!("4\n{}4\n4\n", " ".repeat(length));
            assert_eq!(tape_of(text.as_bytes()), (vec![4], refused_at(2)));
        }
    }

    #[test]
    fn how_a_text_comes_in_parts_changes_nothing() {
        let text = "2 300 4294967295\n3 8 1 1 1 1 100 5 0\n4\n5\n 4\n4\n";
        let whole = tape_of(text.as_bytes());
        assert_eq!(whole.1, refused_at(5));
        for length in 1..text.len() {
            let parts = BufReader::with_capacity(length, text.as_bytes());
            assert_eq!(tape_of(parts), whole);
        }
    }

    /// A text that cannot be read on.
    struct Broken;

    impl Read for Broken {
        fn read(&mut self, _: &mut [u8]) -> io::Result<usize> {
            Err(ErrorKind::ConnectionReset.into())
        }
    }

    #[test]
    fn nothing_after_the_refused_line_is_read() {
        let text = |front: &'static str| front.as_bytes().chain(BufReader::new(Broken));
        assert_eq!(tape_of(text("4\n5 5\n")), (vec![4], refused_at(2)));
        let mut events = Events::new(text("4\n5"));
        assert!(matches!(events.event(), Ok(Some(Ok(_)))));
        assert!(events.event().is_err());
    }

    #[test]
    fn a_tape_is_shown_as_far_as_it_is_read() {
        assert_eq!(show(&[]), "");
        assert_eq!(show(&[2, 0xac, 0x02, 0, 4, 0, 4]), "2 300 0\n4\n");
        let (tape, refused) = tape_of(show(&[5, 3, 8, 1, 3, 0, 0, 0, 0, 7]).as_bytes());
        assert_eq!(tape, [5, 3, 8, 1, 3, 0, 0, 0, 0, 7]);
        assert_eq!(refused, None);
    }
}
