//! Kinds of texts, and the rounds in which they are written.

use crate::dice::Dice;

/// How the texts of a way are written: by chance, and one time round otherwise
/// than the next.
type Write<T> = Box<dyn Fn(&mut Dice, bool) -> T>;

/// A kind of text.
pub struct Way<T> {
    pub name: String,
    write: Write<T>,
}

impl<T> Way<T> {
    pub fn new(name: impl Into<String>, write: impl Fn(&mut Dice, bool) -> T + 'static) -> Way<T> {
        Way {
            name: name.into(),
            write: Box::new(write),
        }
    }

    /// The text of this way and seed. The name has its part in the chance, so
    /// that the ways of one seed do not all have the same right lines.
    pub fn text(&self, seed: u64) -> T {
        let named = self.name.bytes().fold(0_u64, |sum, byte| {
            sum.wrapping_mul(31).wrapping_add(u64::from(byte))
        });
        let odd = named.wrapping_add(seed) % 2 == 1;
        let mut dice = Dice::new(named.rotate_left(32) ^ seed);
        (self.write)(&mut dice, odd)
    }
}

/// The ways and seeds of a set of texts: all ways in turn, the seed rising by
/// one each time round.
pub fn round<T>(ways: &[Way<T>], count: u64, seed: u64) -> impl Iterator<Item = (&Way<T>, u64)> {
    let seeds = (0..).map(move |turn| seed.wrapping_add(turn));
    seeds
        .flat_map(|seed| ways.iter().map(move |way| (way, seed)))
        .take(usize::try_from(count).unwrap_or(usize::MAX))
}

#[cfg(test)]
pub mod checks {
    use super::*;

    /// Looks at each text of so many rounds.
    pub fn rounds<T>(ways: &[Way<T>], count: u64, mut look: impl FnMut(&Way<T>, &T)) {
        for (way, seed) in round(ways, count * ways.len() as u64, 1) {
            look(way, &way.text(seed));
        }
    }

    /// Checks that no name is another, nor the start of another before a dash.
    pub fn named_apart<T>(ways: &[Way<T>]) {
        for (place, way) in ways.iter().enumerate() {
            let start = format!("{}-", way.name);
            for other in &ways[..place] {
                assert_ne!(way.name, other.name);
            }
            assert!(
                ways.iter().all(|other| !other.name.starts_with(&start)),
                "{start}"
            );
        }
    }

    /// How many ways have another text with another seed; each has the same
    /// text with the same seed.
    pub fn by_seed<T>(ways: &[Way<T>], bytes: impl Fn(T) -> Vec<u8>) -> usize {
        let differing = |way: &&Way<T>| {
            let text = bytes(way.text(5));
            assert!(bytes(way.text(5)) == text, "{}", way.name);
            bytes(way.text(6)) != text
        };
        ways.iter().filter(differing).count()
    }
}
