//! The writer: one event, given as its numbers, into a room that is lent.

use std::io::{self, Write};

use crate::entry::ENTRY_NUMBERS;
use crate::session::MOST_COUNT;
use crate::settings::SETTINGS_NUMBERS;
use crate::tape::{write_number, Event, Reader};

/// Why an event is not written. A refused call leaves the room as found.
#[derive(Clone, Copy, Debug, PartialEq, Eq, PartialOrd, Ord)]
pub enum WriteRefusal {
    Room = 40,
    NotOneEvent = 41,
}

impl WriteRefusal {
    /// The paper's number for this refusal.
    pub fn number(self) -> u32 {
        self as u32
    }
}

/// The most numbers that an event has: a submit of a full bulk.
pub const MOST_NUMBERS: usize = 3 + MOST_COUNT as usize * ENTRY_NUMBERS;

/// Room for any event, each of its numbers five bytes long.
pub const ROOM_ENOUGH: usize = 5 * MOST_NUMBERS;

/// Writes the event at the front of the room and answers the bytes used; the
/// room past them stays as found.
///
/// The event is spelt aside, so that its exact length is known before the room
/// is touched.
pub fn write(numbers: &[u32], room: &mut [u8]) -> Result<usize, WriteRefusal> {
    if !is_one_event(numbers) {
        return Err(WriteRefusal::NotOneEvent);
    }
    let event = spelt(numbers);
    let front = room.get_mut(..event.len()).ok_or(WriteRefusal::Room)?;
    front.copy_from_slice(&event);
    Ok(event.len())
}

/// Writes the event where there is room for any.
pub fn written(numbers: &[u32]) -> Result<Vec<u8>, WriteRefusal> {
    let mut room = vec![0; ROOM_ENOUGH];
    let used = write(numbers, &mut room)?;
    room.truncate(used);
    Ok(room)
}

/// Whether the numbers are exactly one event that the reader takes. Values are
/// not judged: the calls refuse them, not the tape.
fn is_one_event(numbers: &[u32]) -> bool {
    match numbers {
        [1, values @ ..] => values.len() == SETTINGS_NUMBERS,
        [2, _bid, _offer] => true,
        [3, _tenant, count, entries @ ..] => is_bulk(*count, entries),
        [4] | [5] => true,
        _ => false,
    }
}

/// Whether the numbers are as many whole entries as counted, 1 to 20. The
/// entries are what is counted, so that no count is ever multiplied.
fn is_bulk(count: u32, numbers: &[u32]) -> bool {
    let entries = numbers.chunks_exact(ENTRY_NUMBERS);
    entries.remainder().is_empty()
        && (1..=MOST_COUNT).contains(&count)
        && u32::try_from(entries.len()) == Ok(count)
}

fn spelt(numbers: &[u32]) -> Vec<u8> {
    let mut bytes = Vec::new();
    for number in numbers {
        write_number(*number, &mut bytes);
    }
    bytes
}

/// Writes every event of a tape that can be read again; tells whether the tape
/// came to its end.
pub fn again(tape: &[u8], out: &mut impl Write) -> io::Result<bool> {
    let mut reader = Reader::new(tape);
    loop {
        match reader.event() {
            Ok(Some(event)) => out.write_all(&rewritten(&event)?)?,
            Ok(None) => return Ok(true),
            Err(_) => return Ok(false),
        }
    }
}

/// The bytes of an event that was read, from a tape or a sheet. The writer takes
/// every such event; should it ever not, the tape is not cut short in silence.
pub fn rewritten(event: &Event) -> io::Result<Vec<u8>> {
    written(&event.numbers()).map_err(|refusal| {
        let number = refusal.number();
        io::Error::other(format!("an event that was read is refused by {number}"))
    })
}

#[cfg(test)]
mod tests {
    use super::*;

    /// The byte that fills a room before it is lent.
    const FOUND: u8 = 0xa5;

    /// Numbers of each length, at both ends.
    const ENDS: [u32; 10] = [
        0,
        127,
        128,
        16_383,
        16_384,
        2_097_151,
        2_097_152,
        268_435_455,
        268_435_456,
        u32::MAX,
    ];

    /// The sentence of 41 by the reader itself: the numbers, spelt one behind
    /// another, are read as one event with nothing behind it.
    fn taken_by_the_reader(numbers: &[u32]) -> bool {
        let tape = spelt(numbers);
        let mut reader = Reader::new(&tape);
        matches!(reader.event(), Ok(Some(_))) && reader.place() == tape.len()
    }

    /// Tries one list of numbers in rooms around its length, and tells whether
    /// it was taken.
    fn check(numbers: &[u32]) -> bool {
        let tape = spelt(numbers);
        let right = taken_by_the_reader(numbers);
        let lengths = [0, 1, tape.len().saturating_sub(1)];
        for length in lengths.into_iter().chain(tape.len()..tape.len() + 3) {
            let mut room = vec![FOUND; length];
            let expected = match (right, length >= tape.len()) {
                (false, _) => Err(WriteRefusal::NotOneEvent),
                (true, false) => Err(WriteRefusal::Room),
                (true, true) => Ok(tape.len()),
            };
            assert_eq!(write(numbers, &mut room), expected, "{numbers:?} {length}");
            let used = expected.unwrap_or(0);
            assert_eq!(room[..used], tape[..used], "{numbers:?} {length}");
            assert!(room[used..].iter().all(|byte| *byte == FOUND));
        }
        right
    }

    fn submit(tenant: u32, count: u32, numbers: usize, value: u32) -> Vec<u32> {
        [vec![3, tenant, count], vec![value; numbers]].concat()
    }

    #[test]
    fn the_numbers_of_the_paper() {
        assert_eq!(WriteRefusal::Room.number(), 40);
        assert_eq!(WriteRefusal::NotOneEvent.number(), 41);
    }

    #[test]
    fn every_short_list_is_taken_exactly_when_the_reader_takes_it() {
        let chosen = [0, 1, 2, 3, 4, 5, 20, 21, u32::MAX];
        let mut taken = 0;
        for length in 0..=5_u32 {
            for choice in 0..9_usize.pow(length) {
                let numbers: Vec<u32> = (0..length)
                    .map(|place| chosen[choice / 9_usize.pow(place) % 9])
                    .collect();
                taken += usize::from(check(&numbers));
            }
        }
        // A turn, an opening and the away quotes; settings and submits are longer.
        assert_eq!(taken, 2 + 9 * 9);
    }

    #[test]
    fn settings_are_eleven_values() {
        for value in ENDS {
            for length in 0..=24 {
                let numbers = [vec![1], vec![value; length]].concat();
                assert_eq!(check(&numbers), length == SETTINGS_NUMBERS);
            }
        }
    }

    #[test]
    fn a_submit_has_as_many_entries_as_it_counts() {
        for count in 0..=22 {
            for length in 0..=6 * 22 {
                let right = (1..=20).contains(&count) && length == 6 * count as usize;
                assert_eq!(check(&submit(2, count, length, 1)), right);
            }
        }
    }

    #[test]
    fn a_count_is_not_taken_by_what_is_left_of_its_product_with_six() {
        let counts = [
            (1 << 31, 0),
            ((1 << 31) + 1, 6),
            ((1 << 31) + 20, 120),
            (715_827_883, 2),
            (1_431_655_766, 4),
            (257, 6),
            (65_537, 6),
            (u32::MAX, 6),
        ];
        for (count, length) in counts {
            assert!(!check(&submit(0, count, length, 0)), "{count}");
        }
    }

    #[test]
    fn two_events_are_not_one() {
        let events = [
            vec![1, 1, 1, 1, 10_000, 10, 20, 10, 25, 500, 0, 0],
            vec![2, 100, 105],
            submit(2, 1, 6, 1),
            vec![4],
            vec![5],
        ];
        for first in &events {
            assert!(check(first));
            for second in &events {
                assert!(!check(&[first.as_slice(), second].concat()));
            }
        }
    }

    #[test]
    fn numbers_of_every_length_are_written_wherever_they_stand() {
        for value in ENDS {
            assert!(check(&[2, value, 0]));
            assert!(check(&[2, 0, value]));
            assert!(check(&submit(value, 1, 6, 0)));
            for place in 1..=SETTINGS_NUMBERS {
                let mut settings = [0; 1 + SETTINGS_NUMBERS];
                (settings[0], settings[place]) = (1, value);
                assert!(check(&settings));
            }
            for place in 3..15 {
                let mut bulk = submit(8, 2, 12, 0);
                bulk[place] = value;
                assert!(check(&bulk));
            }
        }
    }

    #[test]
    fn bad_numbers_are_told_before_a_room_too_small() {
        for numbers in [&[][..], &[0], &[4, 4], &[3, 0, 0], &[2, 1]] {
            assert_eq!(write(numbers, &mut []), Err(WriteRefusal::NotOneEvent));
        }
        for numbers in [&[4][..], &[5], &[2, 1, 1]] {
            assert_eq!(write(numbers, &mut []), Err(WriteRefusal::Room));
        }
    }

    #[test]
    fn the_room_is_held_to_the_exact_length() {
        // Not five bytes a number: three numbers here are four bytes.
        let mut room = [FOUND; 4];
        assert_eq!(write(&[2, 128, 0], &mut room[..3]), Err(WriteRefusal::Room));
        assert_eq!(room, [FOUND; 4]);
        assert_eq!(write(&[2, 128, 0], &mut room), Ok(4));
        assert_eq!(room, [2, 0x80, 0x01, 0]);
    }

    #[test]
    fn the_longest_event_has_room_enough() {
        let longest = submit(u32::MAX, 20, 120, u32::MAX);
        assert_eq!(longest.len(), MOST_NUMBERS);
        assert_eq!(written(&longest).map(|bytes| bytes.len()), Ok(607));
        assert_eq!(ROOM_ENOUGH, 615);
    }

    #[test]
    fn the_worked_example_is_written_event_behind_event() {
        let events: [&[u32]; 7] = [
            &[1, 1, 1, 1, 10_000, 10, 20, 10, 25, 500, 0, 0],
            &[5],
            &[3, 2, 1, 1, 1, 1, 100, 5, 0],
            &[3, 7, 1, 1, 2, 2, 100, 3, 0],
            &[4],
            &[4],
            &[4],
        ];
        let mut room = [FOUND; 40];
        let mut at = 0;
        for numbers in events {
            at += write(numbers, &mut room[at..]).expect("an event and room");
        }
        let tape = [
            1, 1, 1, 1, 0x90, 0x4e, 10, 20, 10, 25, 0xf4, 0x03, 0, 0, // settings
            5, // open
            3, 2, 1, 1, 1, 1, 100, 5, 0, // tenant 2 buys
            3, 7, 1, 1, 2, 2, 100, 3, 0, // tenant 7 sells
            4, 4, 4, // three turns
        ];
        assert_eq!(at, 36);
        assert_eq!(room[..at], tape);
        assert_eq!(room[at..], [FOUND; 4]);
    }

    #[test]
    fn what_was_written_is_read_as_the_same_event_whatever_stands_behind() {
        let mut room = [FOUND; ROOM_ENOUGH];
        for value in ENDS {
            let numbers = submit(value, 20, 120, value);
            let used = write(&numbers, &mut room).expect("an event and room");
            let mut reader = Reader::new(&room);
            let event = reader.event().expect("a sound event").expect("an event");
            assert_eq!(event.numbers(), numbers);
            assert_eq!(reader.place(), used);
        }
    }

    #[test]
    fn a_tape_is_written_again_as_far_as_it_is_read() {
        let whole = [2, 0xac, 0x02, 0, 4, 5];
        for (tape, front, ended) in [
            (&whole[..], &whole[..], true),
            (&whole[..3], &[], false),
            (&[4, 5, 2, 0x80, 0x00, 4], &[4, 5], false),
            (&[4, 3, 0, 21], &[4], false),
            (&[], &[], true),
        ] {
            let mut out = Vec::new();
            assert_eq!(again(tape, &mut out).expect("memory"), ended);
            assert_eq!(out, front);
        }
    }
}
