//! Right events, as their numbers.

use crate::dice::Dice;

/// The lowest and the highest number of each length, one to five bytes.
pub const LENGTHS: [(u32, u32); 5] = [
    (0, 127),
    (128, 16_383),
    (16_384, 2_097_151),
    (2_097_152, 268_435_455),
    (268_435_456, u32::MAX),
];

#[derive(Clone, Copy, Debug, PartialEq, Eq)]
pub enum Kind {
    Settings,
    Away,
    Submit,
    Turn,
    Open,
}

pub const KINDS: [Kind; 5] = [
    Kind::Settings,
    Kind::Away,
    Kind::Submit,
    Kind::Turn,
    Kind::Open,
];

impl Kind {
    pub fn name(self) -> &'static str {
        match self {
            Kind::Settings => "settings",
            Kind::Away => "away",
            Kind::Submit => "submit",
            Kind::Turn => "turn",
            Kind::Open => "open",
        }
    }

    /// An event of this kind whose values come one by one from `value`; a
    /// submit has as many entries as counted.
    pub fn event(self, count: u32, mut value: impl FnMut() -> u32) -> Vec<u32> {
        let mut event = match self {
            Kind::Settings => vec![1],
            Kind::Away => vec![2],
            Kind::Submit => vec![3, value(), count],
            Kind::Turn => vec![4],
            Kind::Open => vec![5],
        };
        let more = match self {
            Kind::Settings => 11,
            Kind::Away => 2,
            Kind::Submit => 6 * count as usize,
            Kind::Turn | Kind::Open => 0,
        };
        event.extend(std::iter::repeat_with(value).take(more));
        event
    }

    /// An event of this kind by chance.
    pub fn by_chance(self, dice: &mut Dice) -> Vec<u32> {
        let count = match dice.within(0..=9) {
            0 => 20,
            1 => dice.within(1..=20),
            _ => dice.within(1..=3),
        };
        self.event(count, || any_number(dice))
    }
}

/// A number of so many bytes, often one of the two at the ends.
pub fn of_length(dice: &mut Dice, (low, high): (u32, u32)) -> u32 {
    match dice.within(0..=3) {
        0 => low,
        1 => high,
        _ => dice.within(low..=high),
    }
}

/// A number of any length, the short ones as likely as the long.
pub fn any_number(dice: &mut Dice) -> u32 {
    let length = dice.pick(&LENGTHS);
    of_length(dice, length)
}

/// Any event.
pub fn any(dice: &mut Dice) -> Vec<u32> {
    dice.pick(&KINDS).by_chance(dice)
}

/// An event of several numbers: the first, some between and a last.
pub fn any_of_several(dice: &mut Dice) -> Vec<u32> {
    dice.pick(&[Kind::Settings, Kind::Away, Kind::Submit])
        .by_chance(dice)
}
