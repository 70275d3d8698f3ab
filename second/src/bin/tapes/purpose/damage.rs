//! Damaged tapes: a sound start, then one bad number at a chosen place, then
//! events that are never run.

use std::io;

use second::entry::Side;
use second::tape::{write_number, Event};

use crate::pen::{limit, Pen, DAY, PLAIN};
use crate::weather::{self, MIXED};

/// What is wrong with the bad number.
#[derive(Clone, Copy, Debug)]
enum Wrong {
    Missing,
    CutWithin,
    Overlong,
    TooLarge,
    FifthHigh,
    Other(u32),
}

/// Where the bad number stands: the sound numbers before it in its event.
#[derive(Clone, Copy, Debug)]
enum Where {
    Event,
    Settings,
    Away,
    Tenant,
    Count,
    Entry,
    NextEntry,
}

const PLACES: [Where; 7] = [
    Where::Event,
    Where::Settings,
    Where::Away,
    Where::Tenant,
    Where::Count,
    Where::Entry,
    Where::NextEntry,
];

const NUMBERS: [Wrong; 5] = [
    Wrong::Missing,
    Wrong::CutWithin,
    Wrong::Overlong,
    Wrong::TooLarge,
    Wrong::FifthHigh,
];

/// Numbers well spelt that are no event or no count. The event numbers 6 to
/// 13 are not among them: document 02 gives them a meaning.
const OTHERS: [(Where, Wrong); 8] = [
    (Where::Event, Wrong::Other(0)),
    (Where::Event, Wrong::Other(14)),
    (Where::Event, Wrong::Other(133)),
    (Where::Event, Wrong::Other(u32::MAX)),
    (Where::Count, Wrong::Other(0)),
    (Where::Count, Wrong::Other(21)),
    (Where::Count, Wrong::Other(148)),
    (Where::Count, Wrong::Other(u32::MAX)),
];

/// Every damage there is.
fn damages() -> Vec<(Where, Wrong)> {
    PLACES
        .into_iter()
        .flat_map(|place| NUMBERS.map(|wrong| (place, wrong)))
        .chain(OTHERS)
        .collect()
}

/// A sound start, a damage and what follows it; seeds in a row give each
/// damage in turn.
pub fn damaged(pen: &mut Pen, seed: u64) -> io::Result<()> {
    let damages = damages();
    let count = u64::try_from(damages.len()).unwrap_or(1);
    let place = usize::try_from(seed % count).unwrap_or(0);
    let (place, wrong) = damages[place];
    if pen.dice.chance(80) {
        weather::blow(pen, &MIXED)?;
    }
    damage(pen, place, wrong)
}

fn damage(pen: &mut Pen, place: Where, wrong: Wrong) -> io::Result<()> {
    let mut bytes = sound_start(pen, place);
    bytes.extend(bad_number(pen, wrong));
    pen.bytes(&bytes)?;
    let cut = matches!(wrong, Wrong::Missing | Wrong::CutWithin);
    if cut || pen.dice.chance(40) {
        return Ok(());
    }
    let mut never_run = Vec::new();
    for event in [Event::Settings(PLAIN), Event::Open, Event::Turn] {
        event.write(&mut never_run);
    }
    pen.bytes(&never_run)
}

/// The sound numbers of the unfinished event.
fn sound_start(pen: &mut Pen, place: Where) -> Vec<u8> {
    let entry = limit(Side::Buy, DAY, 300, 200);
    let sound: Vec<u32> = match place {
        Where::Event => Vec::new(),
        Where::Settings => {
            let taken = pen.dice.within(0..=10) as usize;
            std::iter::once(1).chain(PLAIN).take(taken + 1).collect()
        }
        Where::Away => {
            let taken = pen.dice.within(1..=2) as usize;
            [2, 300].into_iter().take(taken).collect()
        }
        Where::Tenant => vec![3],
        Where::Count => vec![3, pen.dice.pick(&[0, 8, 300])],
        Where::Entry => {
            let taken = pen.dice.within(0..=5) as usize;
            [3, 2, 2]
                .into_iter()
                .chain(entry.into_iter().take(taken))
                .collect()
        }
        Where::NextEntry => [3, 2, 2].into_iter().chain(entry).collect(),
    };
    let mut bytes = Vec::new();
    for number in sound {
        write_number(number, &mut bytes);
    }
    bytes
}

fn bad_number(pen: &mut Pen, wrong: Wrong) -> Vec<u8> {
    let mut high = |count: u32| -> Vec<u8> {
        (0..count)
            .map(|_| 0x80 | pen.dice.pick(&[0x00, 0x01, 0x05, 0x7f]))
            .collect()
    };
    match wrong {
        Wrong::Missing => Vec::new(),
        Wrong::CutWithin => {
            let all = high(4);
            let kept = pen.dice.within(1..=4) as usize;
            all[..kept].to_vec()
        }
        Wrong::Overlong => {
            let mut bytes = high(4);
            let kept = pen.dice.within(1..=4) as usize;
            bytes.truncate(kept);
            bytes.push(0);
            bytes
        }
        Wrong::TooLarge => {
            let mut bytes = high(4);
            bytes.push(pen.dice.pick(&[0x10, 0x11, 0x1f, 0x7f]));
            bytes
        }
        Wrong::FifthHigh => high(5),
        Wrong::Other(number) => {
            let mut bytes = Vec::new();
            write_number(number, &mut bytes);
            bytes
        }
    }
}

/// Bytes by chance, most of them small so that events come about.
pub fn bytes(pen: &mut Pen) -> io::Result<()> {
    let small = pen.dice.chance(70);
    for _ in 0..pen.asked() {
        let any = pen.dice.within(0..=255);
        let byte = if small && pen.dice.chance(95) {
            pen.dice.pick(&[0, 1, 1, 1, 2, 2, 3, 4, 4, 5, 100])
        } else {
            any
        };
        pen.bytes(&[u8::try_from(byte).unwrap_or(0)])?;
    }
    Ok(())
}

#[cfg(test)]
mod tests {
    use super::*;

    #[test]
    fn unknown_event_numbers_are_those_that_stay_unknown() {
        for damage in damages() {
            if let (Where::Event, Wrong::Other(number)) = damage {
                assert!(number == 0 || number > 13, "{number}");
            }
        }
    }
}
