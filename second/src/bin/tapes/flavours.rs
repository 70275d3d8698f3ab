//! The flavours of tapes and how each is written.

use std::io::{self, Write};

use crate::pen::Pen;
use crate::purpose::{calls, damage, openings, play, trading, turned_down};
use crate::weather::{self, Weather};

/// A kind of tape.
pub struct Flavour {
    pub name: &'static str,
    pub about: &'static str,
    /// How many events are written when none are asked for.
    pub events: u64,
    write: fn(&mut Pen, u64) -> io::Result<()>,
}

impl Flavour {
    /// Writes the tape of this flavour and seed.
    pub fn write(&self, out: &mut dyn Write, seed: u64, events: Option<u64>) -> io::Result<()> {
        let mut pen = Pen::new(out, seed, events.unwrap_or(self.events));
        (self.write)(&mut pen, seed)
    }
}

const fn flavour(
    name: &'static str,
    about: &'static str,
    events: u64,
    write: fn(&mut Pen, u64) -> io::Result<()>,
) -> Flavour {
    Flavour {
        name,
        about,
        events,
        write,
    }
}

/// All flavours: random days first, scenes on purpose next, damage last.
pub const FLAVOURS: [Flavour; 17] = [
    flavour("mixed", "a mixed day", 600, |pen, _| {
        days(pen, &weather::MIXED)
    }),
    flavour("deep", "a deep book", 600, |pen, _| {
        days(pen, &weather::DEEP)
    }),
    flavour("crowded", "a crowded proportional level", 600, |pen, _| {
        days(pen, &weather::CROWDED)
    }),
    flavour(
        "bulk",
        "a bulk quoter beside small tenants",
        600,
        |pen, _| days(pen, &weather::BULK),
    ),
    flavour("thin", "a thin book at low prices", 400, |pen, _| {
        days(pen, &weather::THIN)
    }),
    flavour("away", "an away quote that keeps moving", 400, |pen, _| {
        days(pen, &weather::AWAY)
    }),
    flavour("preopen", "books built up, then opened", 900, |pen, _| {
        days(pen, &weather::PREOPEN)
    }),
    flavour("noise", "wide random noise", 500, |pen, _| {
        days(pen, &weather::NOISE)
    }),
    flavour(
        "settings",
        "settings values at their ends and outside",
        0,
        |pen, _| {
            calls::before_settings(pen)?;
            play(pen, &calls::SETTINGS)
        },
    ),
    flavour(
        "submits",
        "malformed entries, full lanes, rotation",
        0,
        |pen, _| play(pen, &calls::SUBMITS),
    ),
    flavour(
        "aways",
        "away quotes at their ends and outside",
        0,
        |pen, _| play(pen, &calls::AWAYS),
    ),
    flavour(
        "turned-down",
        "each reason to turn an entry down",
        0,
        |pen, _| {
            play(pen, &turned_down::ALL)?;
            play(pen, &turned_down::CANCELS)
        },
    ),
    flavour(
        "dispositions",
        "each disposition, bound and conversion",
        0,
        |pen, _| play(pen, &trading::DISPOSITIONS),
    ),
    flavour(
        "sharing",
        "levels shared, swept and part filled",
        0,
        |pen, _| play(pen, &trading::SHARING),
    ),
    flavour(
        "openings",
        "each source, imbalance and refusal",
        0,
        |pen, _| {
            play(pen, &openings::ALL)?;
            play(pen, &openings::GRIDS)
        },
    ),
    flavour(
        "damaged",
        "a sound start, then one bad number",
        60,
        damage::damaged,
    ),
    flavour(
        "bytes",
        "bytes by chance; --events counts bytes",
        300,
        |pen, _| damage::bytes(pen),
    ),
];

fn days(pen: &mut Pen, weather: &Weather) -> io::Result<()> {
    weather::blow(pen, weather)
}

/// The flavour of this name.
pub fn named(name: &str) -> Option<&'static Flavour> {
    FLAVOURS.iter().find(|flavour| flavour.name == name)
}

/// The flavours and seeds of a set of tapes: all flavours in turn, the seed
/// rising by one each time round.
pub fn round(
    count: u64,
    seed: u64,
    only: Option<&'static Flavour>,
) -> impl Iterator<Item = (&'static Flavour, u64)> {
    (0..count).map(move |turn| match only {
        Some(flavour) => (flavour, seed.wrapping_add(turn)),
        None => {
            let flavours = FLAVOURS.len() as u64;
            let place = usize::try_from(turn % flavours).unwrap_or(0);
            (&FLAVOURS[place], seed.wrapping_add(turn / flavours))
        }
    })
}

#[cfg(test)]
mod tests {
    use super::*;
    use second::session::{Series, Session, Tally};
    use second::tape::{call, Reader};
    use second::words::{make, show};

    #[test]
    fn every_tape_is_shown_and_made_again() {
        for (flavour, seed) in round(17 * 40, 1, None) {
            let mut tape = Vec::new();
            flavour.write(&mut tape, seed, None).unwrap();
            assert_eq!(make(&show(&tape)), Ok(tape), "{} {seed}", flavour.name);
        }
    }

    /// What holds of every series at every time.
    fn holds(series: &Series) {
        let book = series.book();
        let tallies: Vec<Tally> = (0..9).filter_map(|tenant| series.tally(tenant)).collect();
        let bought: u128 = tallies.iter().map(|tally| tally.bought).sum();
        let sold: u128 = tallies.iter().map(|tally| tally.sold).sum();
        assert!(!series.is_open() || !book.crosses());
        assert!((0..9).all(|tenant| book.resting_of(tenant) <= 24));
        assert!((0..9).all(|tenant| series.waiting(tenant) <= 64));
        assert_eq!(bought, sold);
    }

    #[test]
    fn an_open_book_is_never_locked_or_crossed() {
        for (flavour, seed) in round(17 * 6, 300, None) {
            let mut tape = Vec::new();
            flavour.write(&mut tape, seed, None).unwrap();
            let mut session = Session::default();
            let mut reader = Reader::new(&tape);
            while let Ok(Some(event)) = reader.event() {
                call(&mut session, &event);
                session.series().into_iter().for_each(holds);
            }
        }
    }

    #[test]
    fn a_seed_gives_the_same_tape_again() {
        for (flavour, seed) in round(17, 99, None) {
            let write = || {
                let mut tape = Vec::new();
                flavour.write(&mut tape, seed, None).unwrap();
                tape
            };
            assert_eq!(write(), write(), "{}", flavour.name);
        }
    }

    #[test]
    fn days_have_as_many_events_as_asked() {
        for flavour in &FLAVOURS[..8] {
            let mut tape = Vec::new();
            flavour.write(&mut tape, 5, Some(1_234)).unwrap();
            assert_eq!(show(&tape).lines().count(), 1_234, "{}", flavour.name);
        }
    }
}
