//! The tape: its numbers, its events and the lines printed for them.

use std::io::{self, Write};

use crate::book::Fill;
use crate::entry::ENTRY_NUMBERS;
use crate::opening::Opening;
use crate::refusal::{answer, Refusal};
use crate::session::{Session, Turn, MOST_COUNT, RECORDS};
use crate::settings::SETTINGS_NUMBERS;

/// Why a tape is refused.
#[derive(Clone, Copy, Debug, PartialEq, Eq, PartialOrd, Ord)]
pub enum TapeRefusal {
    CutShort = 30,
    Overlong = 31,
    TooLarge = 32,
    Event = 33,
    Count = 34,
}

impl TapeRefusal {
    /// The paper's number for this refusal.
    pub fn number(self) -> u32 {
        self as u32
    }
}

/// A refused tape: why, and the place of the bad number's first byte.
#[derive(Clone, Copy, Debug, PartialEq, Eq)]
pub struct Refused {
    pub refusal: TapeRefusal,
    pub place: usize,
}

/// One event of a tape, read whole.
#[derive(Clone, Debug, PartialEq, Eq)]
pub enum Event {
    Settings([u32; SETTINGS_NUMBERS]),
    Away {
        bid: u32,
        offer: u32,
    },
    Submit {
        tenant: u32,
        entries: Vec<[u32; ENTRY_NUMBERS]>,
    },
    Turn,
    Open,
}

/// The most bytes a number has.
const MOST_BYTES: usize = 5;

/// Reads the number whose first byte is at `place`; gives it with the place
/// after its last byte.
pub fn read_number(tape: &[u8], place: usize) -> Result<(u32, usize), Refused> {
    let rest = tape.get(place..).unwrap_or_default();
    let refused = |refusal| Err(Refused { refusal, place });
    let mut value: u64 = 0;
    for (group, byte) in rest.iter().take(MOST_BYTES).enumerate() {
        value += u64::from(byte & 0x7f) << (7 * group);
        if byte & 0x80 == 0 {
            if group > 0 && *byte == 0 {
                return refused(TapeRefusal::Overlong);
            }
            return match u32::try_from(value) {
                Ok(number) => Ok((number, place + group + 1)),
                Err(_) => refused(TapeRefusal::TooLarge),
            };
        }
    }
    if rest.len() < MOST_BYTES {
        refused(TapeRefusal::CutShort)
    } else {
        refused(TapeRefusal::TooLarge)
    }
}

/// Writes a number in its one right spelling.
pub fn write_number(mut value: u32, tape: &mut Vec<u8>) {
    while value >= 0x80 {
        tape.push((value & 0x7f) as u8 | 0x80);
        value >>= 7;
    }
    tape.push(value as u8);
}

impl Event {
    /// The event as its numbers, in the order of the tape.
    pub fn numbers(&self) -> Vec<u32> {
        match self {
            Event::Settings(values) => [&[1], values.as_slice()].concat(),
            Event::Away { bid, offer } => vec![2, *bid, *offer],
            Event::Submit { tenant, entries } => {
                let count = u32::try_from(entries.len()).unwrap_or(u32::MAX);
                [&[3, *tenant, count], entries.as_flattened()].concat()
            }
            Event::Turn => vec![4],
            Event::Open => vec![5],
        }
    }

    /// Writes the event as the tape holds it, whatever its numbers.
    pub fn write(&self, tape: &mut Vec<u8>) {
        for number in self.numbers() {
            write_number(number, tape);
        }
    }
}

/// Reads a tape event by event.
#[derive(Clone, Copy, Debug)]
pub struct Reader<'a> {
    tape: &'a [u8],
    place: usize,
}

impl<'a> Reader<'a> {
    pub fn new(tape: &'a [u8]) -> Reader<'a> {
        Reader { tape, place: 0 }
    }

    /// The place of the next number.
    pub fn place(&self) -> usize {
        self.place
    }

    /// The next event, or none where the tape ends between events.
    pub fn event(&mut self) -> Result<Option<Event>, Refused> {
        if self.place >= self.tape.len() {
            return Ok(None);
        }
        let place = self.place;
        match self.number()? {
            1 => self.numbers().map(Event::Settings),
            2 => self
                .numbers()
                .map(|[bid, offer]| Event::Away { bid, offer }),
            3 => self.submit(),
            4 => Ok(Event::Turn),
            5 => Ok(Event::Open),
            _ => Err(Refused {
                refusal: TapeRefusal::Event,
                place,
            }),
        }
        .map(Some)
    }

    fn submit(&mut self) -> Result<Event, Refused> {
        let tenant = self.number()?;
        let place = self.place;
        let count = self.number()?;
        if !(1..=MOST_COUNT).contains(&count) {
            let refusal = TapeRefusal::Count;
            return Err(Refused { refusal, place });
        }
        let entries = (0..count).map(|_| self.numbers()).collect::<Result<_, _>>();
        entries.map(|entries| Event::Submit { tenant, entries })
    }

    fn number(&mut self) -> Result<u32, Refused> {
        let (number, end) = read_number(self.tape, self.place)?;
        self.place = end;
        Ok(number)
    }

    fn numbers<const N: usize>(&mut self) -> Result<[u32; N], Refused> {
        let mut numbers = [0; N];
        for number in &mut numbers {
            *number = self.number()?;
        }
        Ok(numbers)
    }
}

/// What an event gave.
#[derive(Clone, Debug, PartialEq, Eq)]
pub enum Answer {
    Settings(Result<(), Refusal>),
    Away(Result<(), Refusal>),
    Submit(Result<(), Refusal>),
    Turn(Result<Turn, Refusal>),
    Open(Result<Opening, Refusal>),
}

/// Makes the call of an event, lending all that is asked.
pub fn call(session: &mut Session, event: &Event) -> Answer {
    match event {
        Event::Settings(numbers) => Answer::Settings(session.settings(numbers)),
        Event::Away { bid, offer } => Answer::Away(session.away(*bid, *offer)),
        Event::Submit { tenant, entries } => {
            let count = u32::try_from(entries.len()).unwrap_or(u32::MAX);
            let numbers: Vec<u32> = entries.iter().flatten().copied().collect();
            Answer::Submit(session.submit(*tenant, count, &numbers))
        }
        Event::Turn => Answer::Turn(session.turn(RECORDS)),
        Event::Open => Answer::Open(session.open(RECORDS)),
    }
}

/// Prints the lines of an answer.
pub fn print(answered: &Answer, out: &mut impl Write) -> io::Result<()> {
    match answered {
        Answer::Settings(outcome) => writeln!(out, "set {}", answer(*outcome)),
        Answer::Away(outcome) => writeln!(out, "away {}", answer(*outcome)),
        Answer::Submit(outcome) => writeln!(out, "submit {}", answer(*outcome)),
        Answer::Turn(Ok(turn)) => print_turn(turn, out),
        Answer::Turn(Err(refusal)) => writeln!(out, "refused {}", refusal.number()),
        Answer::Open(Ok(opening)) => print_opening(opening, out),
        Answer::Open(Err(refusal)) => writeln!(out, "open {} 0 0", refusal.number()),
    }
}

fn print_turn(turn: &Turn, out: &mut impl Write) -> io::Result<()> {
    match &turn.outcome {
        Err(reason) => writeln!(out, "turn {} {} 0 0 0", turn.tenant, reason.number()),
        Ok(accepted) => {
            let disposition = accepted.disposition.number();
            let (number, filled) = (accepted.number, accepted.filled.0);
            writeln!(
                out,
                "turn {} 0 {number} {filled} {disposition}",
                turn.tenant
            )?;
            print_fills(&accepted.fills, out)
        }
    }
}

fn print_opening(opening: &Opening, out: &mut impl Write) -> io::Result<()> {
    writeln!(out, "open 0 {} {}", opening.price.0, opening.volume.0)?;
    print_fills(&opening.fills, out)?;
    opening
        .gone
        .iter()
        .try_for_each(|number| writeln!(out, "gone {number}"))
}

fn print_fills(fills: &[Fill], out: &mut impl Write) -> io::Result<()> {
    fills.iter().try_for_each(|fill| {
        let (number, tenant) = (fill.number, fill.tenant);
        let (quantity, price) = (fill.quantity.0, fill.price.0);
        writeln!(out, "fill {number} {tenant} {quantity} {price}")
    })
}

/// Prints a line for each tenant: turns taken, contracts bought and sold.
pub fn print_tallies(session: &Session, out: &mut impl Write) -> io::Result<()> {
    let tallies = session.tallies();
    tallies.iter().enumerate().try_for_each(|(tenant, tally)| {
        let (turns, bought, sold) = (tally.turns, tally.bought, tally.sold);
        writeln!(out, "tally {tenant} {turns} {bought} {sold}")
    })
}

/// Runs a whole tape on a session and prints its lines; tells whether it came
/// to its end.
pub fn run(session: &mut Session, tape: &[u8], out: &mut impl Write) -> io::Result<bool> {
    let mut reader = Reader::new(tape);
    loop {
        match reader.event() {
            Ok(Some(event)) => print(&call(session, &event), out)?,
            Ok(None) => {
                writeln!(out, "end")?;
                return Ok(true);
            }
            Err(Refused { refusal, place }) => {
                writeln!(out, "tape {} {place}", refusal.number())?;
                return Ok(false);
            }
        }
    }
}

#[cfg(test)]
mod tests {
    use super::*;

    /// The three conditions, each said by itself; none applying, the value.
    fn stated(bytes: &[u8]) -> Result<(u32, usize), TapeRefusal> {
        let high = bytes.iter().take_while(|byte| **byte >= 0x80).count();
        let fifth_high = high >= 5;
        let cut_short = !fifth_high && high == bytes.len();
        let last = bytes.get(high).copied().unwrap_or(1);
        let overlong = !fifth_high && !cut_short && high > 0 && last == 0;
        let spelt: u128 = bytes
            .iter()
            .take(high + 1)
            .rev()
            .fold(0, |rest, byte| u128::from(byte % 128) + 128 * rest);
        let above = !fifth_high && !cut_short && spelt > 4_294_967_295;
        let conditions = [cut_short, overlong, fifth_high || above];
        let met = conditions.iter().filter(|met| **met).count();
        assert!(met <= 1, "30, 31 and 32 never apply together: {bytes:x?}");
        match conditions {
            [true, _, _] => Err(TapeRefusal::CutShort),
            [_, true, _] => Err(TapeRefusal::Overlong),
            [_, _, true] => Err(TapeRefusal::TooLarge),
            _ => Ok((spelt as u32, high + 1)),
        }
    }

    fn check(bytes: &[u8]) {
        let read = read_number(bytes, 0).map_err(|refused| {
            assert_eq!(refused.place, 0);
            refused.refusal
        });
        assert_eq!(read, stated(bytes), "{bytes:x?}");
    }

    #[test]
    fn every_byte_string_up_to_two() {
        check(&[]);
        for first in 0..=255 {
            check(&[first]);
            for second in 0..=255 {
                check(&[first, second]);
            }
        }
    }

    #[test]
    fn chosen_byte_strings_of_three_to_six() {
        let chosen = [0x00, 0x01, 0x0f, 0x10, 0x7f, 0x80, 0x8f, 0xff];
        for length in 3..=6_u32 {
            for choice in 0..8_usize.pow(length) {
                let bytes: Vec<u8> = (0..length)
                    .map(|digit| chosen[choice / 8_usize.pow(digit) % 8])
                    .collect();
                check(&bytes);
            }
        }
    }

    #[test]
    fn what_is_written_is_read_again() {
        let ends = (0..32).flat_map(|bit| [(1_u32 << bit) - 1, 1 << bit, (1 << bit) + 1]);
        for value in ends.chain([u32::MAX]) {
            let mut bytes = vec![0xff; 3];
            write_number(value, &mut bytes);
            assert_eq!(read_number(&bytes, 3), Ok((value, bytes.len())));
        }
    }

    #[test]
    fn e12() {
        let written = |value| {
            let mut bytes = Vec::new();
            write_number(value, &mut bytes);
            bytes
        };
        assert_eq!(written(0), [0x00]);
        assert_eq!(written(128), [0x80, 0x01]);
        assert_eq!(written(300), [0xac, 0x02]);
        check(&[0x80, 0x00]);
        let refused = read_number(&[0x80, 0x00], 0).unwrap_err();
        assert_eq!(refused.refusal.number(), 31);
    }

    #[test]
    fn no_bytes_at_all_run_into_a_stop() {
        let mut seed: u32 = 1;
        for length in 0..400 {
            let tape: Vec<u8> = (0..length)
                .map(|_| {
                    seed = seed.wrapping_mul(1_664_525).wrapping_add(1_013_904_223);
                    (seed >> 24) as u8 % 8
                })
                .collect();
            let mut out = Vec::new();
            assert!(run(&mut Session::default(), &tape, &mut out).is_ok());
            assert!(out.ends_with(b"\n"));
        }
    }
}
