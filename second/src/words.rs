//! A tape in words, one event a line, and back again.
//!
//! `show` puts every event that can be read into words and the rest of the
//! bytes on a `raw` line; `show_places` adds where on the tape each line
//! starts; `make` turns such words into the same bytes.

use std::fmt::Write;

use crate::entry::ENTRY_NUMBERS;
use crate::settings::SETTINGS_NUMBERS;
use crate::tape::{Event, Reader};

/// The names of the settings, in the paper's order.
pub const SETTINGS_NAMES: [&str; SETTINGS_NUMBERS] = [
    "allocation",
    "grid",
    "type",
    "strike",
    "drill",
    "far",
    "percent",
    "least",
    "greatest",
    "print",
    "close",
];

const ALLOCATIONS: [&str; 2] = ["time", "proportional"];
const TYPES: [&str; 2] = ["call", "put"];
const SIDES: [&str; 2] = ["buy", "sell"];
const LIVES: [&str; 2] = ["day", "now"];

/// The words of a tape, a `raw` line for what cannot be read.
pub fn show(tape: &[u8]) -> String {
    show_with(tape, |_| String::new())
}

/// The same words, each line with a remark on the place of its first byte.
pub fn show_places(tape: &[u8]) -> String {
    show_with(tape, |place| format!(" # byte {place}"))
}

/// The words of a tape, each line ended by what `remark` says of its place.
fn show_with(tape: &[u8], remark: impl Fn(usize) -> String) -> String {
    let mut words = String::new();
    let mut reader = Reader::new(tape);
    loop {
        let start = reader.place();
        let event = reader.event();
        let line = match &event {
            Ok(Some(event)) => event_words(event),
            Ok(None) => return words,
            Err(_) => raw_words(&tape[start..]),
        };
        // Writing to a string never fails.
        let _ = writeln!(words, "{line}{}", remark(start));
        if event.is_err() {
            return words;
        }
    }
}

fn raw_words(bytes: &[u8]) -> String {
    bytes.iter().fold("raw".to_string(), |mut line, byte| {
        // Writing to a string never fails.
        let _ = write!(line, " {byte:02X}");
        line
    })
}

/// One event in words.
pub fn event_words(event: &Event) -> String {
    match event {
        Event::Settings(numbers) => settings_words(numbers),
        Event::Away { bid, offer } => format!("away bid {bid} offer {offer}"),
        Event::Submit { tenant, entries } => {
            let entries: Vec<String> = entries.iter().map(entry_words).collect();
            format!("submit tenant {tenant}: {}", entries.join(", "))
        }
        Event::Turn => "turn".to_string(),
        Event::Open => "open".to_string(),
    }
}

fn settings_words(numbers: &[u32; SETTINGS_NUMBERS]) -> String {
    SETTINGS_NAMES
        .iter()
        .zip(numbers)
        .fold("settings".to_string(), |line, (name, number)| {
            let value = match *name {
                "allocation" => word_or_number(&ALLOCATIONS, *number),
                "type" => word_or_number(&TYPES, *number),
                _ => number.to_string(),
            };
            format!("{line} {name} {value}")
        })
}

fn word_or_number(words: &[&str], number: u32) -> String {
    word(words, number).map_or_else(|| number.to_string(), str::to_string)
}

fn word<'a>(words: &[&'a str], number: u32) -> Option<&'a str> {
    let place = usize::try_from(number).ok()?.checked_sub(1)?;
    words.get(place).copied()
}

fn entry_words(numbers: &[u32; ENTRY_NUMBERS]) -> String {
    order_words(numbers).unwrap_or_else(|| match numbers {
        [3, 0, 0, 0, 0, number] => format!("cancel {number}"),
        [kind, side, life, price, size, number] => {
            format!("numbers {kind} {side} {life} {price} {size} {number}")
        }
    })
}

/// A new order in words; none where its numbers have no words.
fn order_words(numbers: &[u32; ENTRY_NUMBERS]) -> Option<String> {
    let [kind, side, life, price, size, 0] = *numbers else {
        return None;
    };
    let price = match (kind, price) {
        (1, price) => price.to_string(),
        (2, 0) => "market".to_string(),
        _ => return None,
    };
    let (side, life) = (word(&SIDES, side)?, word(&LIVES, life)?);
    Some(format!("{side} {life} {size} at {price}"))
}

/// The tape that the words spell.
pub fn make(words: &str) -> Result<Vec<u8>, String> {
    let mut tape = Vec::new();
    for (place, line) in words.lines().enumerate() {
        make_line(line, &mut tape).map_err(|reason| format!("line {}: {reason}", place + 1))?;
    }
    Ok(tape)
}

fn make_line(line: &str, tape: &mut Vec<u8>) -> Result<(), String> {
    let said = line.split('#').next().unwrap_or_default();
    let mut words = said.split_whitespace();
    let Some(first) = words.next() else {
        return Ok(());
    };
    let rest: Vec<&str> = words.collect();
    match first {
        "settings" => make_settings(&rest)?.write(tape),
        "away" => make_away(&rest)?.write(tape),
        "submit" => make_submit(&rest.join(" "))?.write(tape),
        "turn" => (0..times(&rest)?).for_each(|_| Event::Turn.write(tape)),
        "open" if rest.is_empty() => Event::Open.write(tape),
        "raw" => tape.extend(make_raw(&rest)?),
        _ => return Err(format!("no event is spelt `{}`", said.trim())),
    }
    Ok(())
}

fn number(word: &str) -> Result<u32, String> {
    word.parse()
        .map_err(|_| format!("`{word}` is no number of a tape"))
}

fn number_of(words: &[&str], word: &str) -> Result<u32, String> {
    match words.iter().zip(1..).find(|(known, _)| **known == word) {
        Some((_, number)) => Ok(number),
        None => number(word),
    }
}

fn make_settings(rest: &[&str]) -> Result<Event, String> {
    let mut numbers = [0; SETTINGS_NUMBERS];
    if rest.len() != 2 * SETTINGS_NUMBERS {
        return Err(format!("settings take {SETTINGS_NUMBERS} names and values"));
    }
    for (place, pair) in rest.chunks_exact(2).enumerate() {
        let name = SETTINGS_NAMES[place];
        if pair[0] != name {
            return Err(format!("`{name}` is due, not `{}`", pair[0]));
        }
        numbers[place] = match name {
            "allocation" => number_of(&ALLOCATIONS, pair[1])?,
            "type" => number_of(&TYPES, pair[1])?,
            _ => number(pair[1])?,
        };
    }
    Ok(Event::Settings(numbers))
}

fn make_away(rest: &[&str]) -> Result<Event, String> {
    match rest {
        ["bid", bid, "offer", offer] => Ok(Event::Away {
            bid: number(bid)?,
            offer: number(offer)?,
        }),
        _ => Err("an away is spelt `away bid B offer O`".to_string()),
    }
}

fn make_submit(rest: &str) -> Result<Event, String> {
    let spelling = "a submit is spelt `submit tenant T: ENTRY, ENTRY`";
    let (tenant, entries) = rest.split_once(':').ok_or(spelling)?;
    let tenant = tenant.strip_prefix("tenant ").ok_or(spelling)?;
    let entries = entries
        .split(',')
        .map(make_entry)
        .collect::<Result<_, _>>()?;
    Ok(Event::Submit {
        tenant: number(tenant.trim())?,
        entries,
    })
}

fn make_entry(said: &str) -> Result<[u32; ENTRY_NUMBERS], String> {
    let words: Vec<&str> = said.split_whitespace().collect();
    match words.as_slice() {
        ["cancel", given] => Ok([3, 0, 0, 0, 0, number(given)?]),
        ["numbers", numbers @ ..] => {
            let read: Vec<u32> = numbers
                .iter()
                .map(|word| number(word))
                .collect::<Result<_, _>>()?;
            read.try_into()
                .map_err(|_| format!("`numbers` takes {ENTRY_NUMBERS} numbers"))
        }
        [side, life, size, "at", price] => {
            let side = number_of(&SIDES, side)?;
            let life = number_of(&LIVES, life)?;
            let size = number(size)?;
            match *price {
                "market" => Ok([2, side, life, 0, size, 0]),
                price => Ok([1, side, life, number(price)?, size, 0]),
            }
        }
        _ => Err(format!("no entry is spelt `{}`", said.trim())),
    }
}

fn times(rest: &[&str]) -> Result<u32, String> {
    match rest {
        [] => Ok(1),
        ["times", count] => number(count),
        _ => Err("turns are spelt `turn` or `turn times N`".to_string()),
    }
}

fn make_raw(rest: &[&str]) -> Result<Vec<u8>, String> {
    rest.iter()
        .map(|word| u8::from_str_radix(word, 16).map_err(|_| format!("`{word}` is no byte in hex")))
        .collect()
}

#[cfg(test)]
mod tests {
    use super::*;

    #[test]
    fn words_and_bytes_spell_the_same_tape() {
        let words = "\
settings allocation time grid 1 type call strike 10000 drill 10 far 20 percent 10 least 25 greatest 500 print 0 close 0
settings allocation 3 grid 9 type put strike 0 drill 10 far 20 percent 10 least 25 greatest 500 print 0 close 0
away bid 0 offer 4294967295
submit tenant 2: buy day 5 at 100
submit tenant 12: sell now 0 at market, cancel 0, numbers 1 3 1 0 0 0, numbers 2 1 1 7 7 0
turn
open
raw 03 02 15
";
        let tape = make(words).unwrap();
        assert_eq!(show(&tape), words);
        assert_eq!(make(&show(&tape)), Ok(tape));
    }

    #[test]
    fn places_are_counted_in_bytes_from_0() {
        let words = "\
away bid 300 offer 0 # byte 0
turn # byte 4
submit tenant 2: buy day 5 at 100 # byte 5
open # byte 14
raw 00 04 # byte 15
";
        let tape = make(words).unwrap();
        assert_eq!(show_places(&tape), words);
        assert_eq!(show_places(&[]), "");
    }

    #[test]
    fn remarks_and_empty_lines_spell_nothing() {
        let tape = make("# why\n\n  turn times 3 # three\nopen\n").unwrap();
        assert_eq!(tape, [4, 4, 4, 5]);
    }

    #[test]
    fn wrong_words_are_told_with_their_line() {
        let wrong = [
            "turn 3",
            "open wide",
            "away 1 2",
            "submit 1: cancel 1",
            "submit tenant 1",
            "submit tenant 1: buy",
            "submit tenant 1: numbers 1 2",
            "settings allocation time",
            "raw 100",
            "close",
        ];
        for line in wrong {
            let told = make(&format!("turn\n{line}\n")).unwrap_err();
            assert!(told.starts_with("line 2: "), "{line}: {told}");
        }
    }
}
