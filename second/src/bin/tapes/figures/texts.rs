//! Whole texts: right ones, and wrong ones by where their wrong line stands.

use std::ops::RangeInclusive;

use second::figures::line;
use second::tape::Reader;

use super::events::{any, of_length, Kind, KINDS, LENGTHS};
use super::wrong::{self, Wrong};
use super::{Text, Way};
use crate::dice::Dice;
use crate::flavours::FLAVOURS;

/// As many bytes as a program may well read at a time.
const BUFFER: usize = 65_536;

/// All texts but those of a single wrong line among a few right ones.
pub fn all() -> Vec<Way> {
    [
        right(),
        by_length(),
        long(),
        misplaced(),
        far_down(),
        unended(),
    ]
    .into_iter()
    .flatten()
    .collect()
}

/// A few right lines with this wrong one among them or, the next time round,
/// behind them.
pub fn around(wrong: Wrong) -> Way {
    Way::new(wrong.name.clone(), move |dice, odd| {
        let mut text = Text::default();
        some(&mut text, dice, 1..=6);
        text.wrong(&wrong.line(dice));
        if odd {
            some(&mut text, dice, 1..=6);
        }
        text
    })
}

/// A way whose texts are the same kind each time round.
fn way(name: impl Into<String>, write: impl Fn(&mut Text, &mut Dice) + 'static) -> Way {
    Way::new(name, move |dice, _| {
        let mut text = Text::default();
        write(&mut text, dice);
        text
    })
}

/// Some right lines.
fn some(text: &mut Text, dice: &mut Dice, lines: RangeInclusive<u32>) {
    for _ in 0..dice.within(lines) {
        text.event(&any(dice));
    }
}

/// Some wrong line, not a very long one.
fn some_wrong(text: &mut Text, dice: &mut Dice) {
    let wrong = wrong::short();
    let place = dice.roll() as usize % wrong.len();
    text.wrong(&wrong[place].line(dice));
}

/// Right lines up to this length exactly.
fn filled(text: &mut Text, dice: &mut Dice, length: usize) {
    // The longest line is 1,336 bytes.
    while text.bytes.len() + 1_500 < length {
        text.event(&any(dice));
    }
    // An opening is two bytes and these away quotes are seven.
    if (length - text.bytes.len()) % 2 == 1 {
        text.event(&[2, 10, 0]);
    }
    while text.bytes.len() < length {
        text.event(&[5]);
    }
}

fn right() -> Vec<Way> {
    let one = KINDS.map(|kind| {
        way(format!("one-{}", kind.name()), move |text, dice| {
            text.event(&kind.by_chance(dice));
        })
    });
    let others = [
        way("no-bytes", |_, _| {}),
        way("several", |text, dice| some(text, dice, 10..=40)),
        way("counts", |text, dice| {
            for count in 1..=20 {
                text.event(&Kind::Submit.event(count, || dice.within(0..=300)));
            }
        }),
        way("day", |text, dice| {
            let mut tape = Vec::new();
            // Writing to memory never fails.
            let _ = FLAVOURS[0].write(&mut tape, dice.roll(), Some(200));
            let mut reader = Reader::new(&tape);
            while let Ok(Some(event)) = reader.event() {
                text.event(&event.numbers());
            }
        }),
    ];
    one.into_iter().chain(others).collect()
}

/// Each event in numbers of one length, and numbers at the ends of the lengths
/// at each place.
fn by_length() -> Vec<Way> {
    let lengths = LENGTHS.iter().zip(1..).map(|(length, bytes)| {
        way(format!("bytes-{bytes}"), move |text, dice| {
            every_event(text, || of_length(dice, *length));
        })
    });
    let alike = [("smallest", 0), ("largest", u32::MAX)]
        .map(|(name, number)| way(name, move |text, _| every_event(text, || number)));
    let places = [
        ("ends-settings", Kind::Settings),
        ("ends-away", Kind::Away),
        ("ends-submit", Kind::Submit),
    ]
    .map(|(name, kind)| way(name, move |text, dice| at_every_place(text, dice, kind)));
    lengths.chain(alike).chain(places).collect()
}

/// Each event with these values, a submit short and full.
fn every_event(text: &mut Text, mut value: impl FnMut() -> u32) {
    for kind in KINDS {
        text.event(&kind.event(1, &mut value));
    }
    text.event(&Kind::Submit.event(20, &mut value));
}

/// Each number at an end of a length, at each place where a value stands.
fn at_every_place(text: &mut Text, dice: &mut Dice, kind: Kind) {
    let values = kind.event(2, || 0).len();
    // The count of a submit is no value.
    let places = (1..values).filter(|place| kind != Kind::Submit || *place != 2);
    for place in places {
        for end in LENGTHS.iter().flat_map(|(low, high)| [low, high]) {
            let mut event = kind.event(2, || dice.within(0..=200));
            event[place] = *end;
            text.event(&event);
        }
    }
}

/// Texts longer than a buffer, and texts that fit one just so.
fn long() -> Vec<Way> {
    vec![
        way("long-text", |text, dice| {
            let length = BUFFER + dice.within(1..=9_000) as usize;
            filled(text, dice, length);
        }),
        way("long-tape", |text, _| {
            let full = Kind::Submit.event(20, || u32::MAX);
            (0..110).for_each(|_| text.event(&full));
        }),
        way("short-lines", |text, dice| {
            (0..35_000).for_each(|_| text.event(&[dice.within(4..=5)]));
        }),
        way("buffer-ends-with-text", |text, dice| {
            filled(text, dice, BUFFER)
        }),
        way("buffer-ends-with-line", |text, dice| {
            filled(text, dice, BUFFER);
            some(text, dice, 1..=6);
        }),
        way("buffer-ends-before-newline", |text, dice| {
            filled(text, dice, BUFFER + 1);
            some(text, dice, 1..=6);
        }),
        way("buffer-ends-in-number", |text, dice| {
            filled(text, dice, BUFFER - 5);
            text.event(&[2, 1_000_000, 5]);
            some(text, dice, 1..=6);
        }),
    ]
}

/// A wrong line in a special place.
fn misplaced() -> Vec<Way> {
    vec![
        way("newline", |text, _| text.wrong(b"")),
        way("newlines", |text, dice| {
            (0..dice.within(2..=9)).for_each(|_| text.wrong(b""));
        }),
        way("returns", |text, dice| {
            for _ in 0..dice.within(2..=9) {
                text.wrong((line(&any(dice)) + "\r").as_bytes());
            }
        }),
        way("wrong-only", some_wrong),
        way("wrong-first", |text, dice| {
            some_wrong(text, dice);
            some(text, dice, 2..=9);
        }),
        way("wrong-twice", |text, dice| {
            for _ in 0..2 {
                some(text, dice, 1..=6);
                some_wrong(text, dice);
            }
        }),
        way("wrong-behind-buffer", |text, dice| {
            filled(text, dice, BUFFER);
            some_wrong(text, dice);
            some(text, dice, 1..=6);
        }),
        way("wrong-across-buffer", |text, dice| {
            filled(text, dice, BUFFER - 2);
            text.wrong(b"4 5");
            some(text, dice, 1..=6);
        }),
    ]
}

/// A wrong line whose number has several figures.
fn far_down() -> Vec<Way> {
    [
        ("line-tens", 10..=99),
        ("line-hundreds", 100..=999),
        ("line-thousands", 1_000..=9_999),
        ("line-ten-thousands", 10_000..=20_000),
    ]
    .map(|(name, lines)| {
        way(name, move |text, dice| {
            for _ in 1..dice.within(lines.clone()) {
                text.event(&[dice.within(4..=5)]);
            }
            some_wrong(text, dice);
            some(text, dice, 1..=6);
        })
    })
    .into_iter()
    .collect()
}

/// A last line without its newline.
fn unended() -> Vec<Way> {
    let right = KINDS.map(|kind| {
        way(format!("unended-{}", kind.name()), move |text, dice| {
            some(text, dice, 1..=6);
            text.unended(line(&kind.by_chance(dice)).as_bytes());
        })
    });
    let wrong = [
        ("unended-event", "14"),
        ("unended-count", "3 8 0"),
        ("unended-short", "2 100"),
        ("unended-space", "4 "),
        ("unended-return", "4\r"),
        ("unended-nul", "\0"),
        ("unended-word", "turn"),
    ]
    .map(|(name, wrong)| {
        way(name, move |text, dice| {
            some(text, dice, 1..=6);
            text.unended(wrong.as_bytes());
        })
    });
    let others = [
        way("unended-only", |text, dice| {
            text.unended(line(&any(dice)).as_bytes());
        }),
        way("unended-long", |text, dice| {
            some(text, dice, 1..=6);
            text.unended(&vec![b'4'; BUFFER + 5_000]);
        }),
        way("unended-at-buffer", |text, dice| {
            filled(text, dice, BUFFER - 1);
            text.unended(b"4");
        }),
        way("unended-behind-buffer", |text, dice| {
            filled(text, dice, BUFFER);
            text.unended(b"4");
        }),
    ];
    right.into_iter().chain(wrong).chain(others).collect()
}
