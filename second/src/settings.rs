//! The settings of the series: how it allocates, which prices it takes, and
//! the distances that protect an incoming order.

use crate::refusal::Refusal;
use crate::units::{Cents, MOST_CENTS};

/// How many numbers a settings call takes.
pub const SETTINGS_NUMBERS: usize = 11;

/// The highest width percent.
pub const MOST_PERCENT: u32 = 1_000;

/// The price from which the grids 2 and 3 step wider.
const WIDER_FROM: Cents = Cents(300);

/// How contracts are shared among the resting orders of one price.
#[derive(Clone, Copy, Debug, PartialEq, Eq)]
pub enum Allocation {
    Time,
    Proportional,
}

impl Allocation {
    fn from_number(number: u32) -> Option<Allocation> {
        match number {
            1 => Some(Allocation::Time),
            2 => Some(Allocation::Proportional),
            _ => None,
        }
    }
}

/// The type of the option series.
#[derive(Clone, Copy, Debug, PartialEq, Eq)]
pub enum OptionType {
    Call,
    Put,
}

impl OptionType {
    fn from_number(number: u32) -> Option<OptionType> {
        match number {
            1 => Some(OptionType::Call),
            2 => Some(OptionType::Put),
            _ => None,
        }
    }
}

/// A price grid: one step below 300 cents and one from there.
#[derive(Clone, Copy, Debug, PartialEq, Eq)]
pub struct Grid {
    below: u64,
    from: u64,
}

impl Grid {
    fn from_number(number: u32) -> Option<Grid> {
        let (below, from) = match number {
            1 => (1, 1),
            2 => (1, 5),
            3 => (5, 10),
            _ => return None,
        };
        Some(Grid { below, from })
    }

    /// The step that must divide a price at this height.
    pub fn step_at(self, price: Cents) -> u64 {
        if price < WIDER_FROM {
            self.below
        } else {
            self.from
        }
    }

    /// The price a converted market sell gets.
    pub fn lowest_step(self) -> Cents {
        Cents(self.below)
    }

    /// Whether the price is on this grid.
    pub fn holds(self, price: Cents) -> bool {
        let step = self.step_at(price);
        price.0 / step * step == price.0
    }
}

/// Accepted settings.
#[derive(Clone, Copy, Debug, PartialEq, Eq)]
pub struct Settings {
    pub allocation: Allocation,
    pub grid: Grid,
    pub option_type: OptionType,
    pub strike: Cents,
    /// D: how far beyond the best opposite quote an order may trade.
    pub drill_buffer: Cents,
    /// F: how far beyond the best opposite quote a limit may lie.
    pub far_buffer: Cents,
    /// x: the width a market order bears, in percent of the quotes' middle.
    pub width_percent: u64,
    pub least_width: Cents,
    pub greatest_width: Cents,
    pub last_print: Option<Cents>,
    pub previous_close: Option<Cents>,
}

impl Settings {
    /// Reads the numbers of a settings call, in the paper's order.
    pub fn from_numbers(numbers: &[u32; SETTINGS_NUMBERS]) -> Result<Settings, Refusal> {
        Settings::listed(numbers).ok_or(Refusal::SettingsValue)
    }

    fn listed(numbers: &[u32; SETTINGS_NUMBERS]) -> Option<Settings> {
        let [allocation, grid, option_type, strike, drill, far, percent, least, greatest, print, close] =
            *numbers;
        if percent > MOST_PERCENT || least > greatest {
            return None;
        }
        Some(Settings {
            allocation: Allocation::from_number(allocation)?,
            grid: Grid::from_number(grid)?,
            option_type: OptionType::from_number(option_type)?,
            strike: Cents::unless_absent(up_to_most(strike)?)?,
            drill_buffer: distance(drill)?,
            far_buffer: distance(far)?,
            width_percent: u64::from(percent),
            least_width: distance(least)?,
            greatest_width: distance(greatest)?,
            last_print: Cents::unless_absent(up_to_most(print)?),
            previous_close: Cents::unless_absent(up_to_most(close)?),
        })
    }
}

fn up_to_most(given: u32) -> Option<u32> {
    (given <= MOST_CENTS).then_some(given)
}

fn distance(given: u32) -> Option<Cents> {
    Some(Cents(u64::from(up_to_most(given)?)))
}

#[cfg(test)]
mod tests {
    use super::*;

    const PLAIN: [u32; SETTINGS_NUMBERS] = [1, 1, 1, 10_000, 10, 20, 10, 25, 500, 0, 0];

    /// For each place of the settings: the lowest and the highest value taken.
    const ENDS: [(u32, u32); SETTINGS_NUMBERS] = [
        (1, 2),
        (1, 3),
        (1, 2),
        (1, 1_000_000),
        (0, 1_000_000),
        (0, 1_000_000),
        (0, 1_000),
        (0, 500),
        (25, 1_000_000),
        (0, 1_000_000),
        (0, 1_000_000),
    ];

    fn with(place: usize, value: u32) -> Result<Settings, Refusal> {
        let mut numbers = PLAIN;
        numbers[place] = value;
        Settings::from_numbers(&numbers)
    }

    #[test]
    fn each_value_is_taken_at_its_ends_and_refused_beyond() {
        for (place, (lowest, highest)) in ENDS.into_iter().enumerate() {
            assert!(with(place, lowest).is_ok(), "place {place} at {lowest}");
            assert!(with(place, highest).is_ok(), "place {place} at {highest}");
            assert_eq!(with(place, highest + 1), Err(Refusal::SettingsValue));
            assert_eq!(with(place, u32::MAX), Err(Refusal::SettingsValue));
            if let Some(below) = lowest.checked_sub(1) {
                assert_eq!(with(place, below), Err(Refusal::SettingsValue));
            }
        }
    }

    #[test]
    fn the_values_come_in_the_papers_order() {
        let settings = Settings::from_numbers(&[2, 3, 2, 4, 5, 6, 7, 8, 9, 10, 11]).unwrap();
        assert_eq!(settings.allocation, Allocation::Proportional);
        assert_eq!(settings.grid, Grid { below: 5, from: 10 });
        assert_eq!(settings.option_type, OptionType::Put);
        assert_eq!(settings.strike, Cents(4));
        assert_eq!(settings.drill_buffer, Cents(5));
        assert_eq!(settings.far_buffer, Cents(6));
        assert_eq!(settings.width_percent, 7);
        assert_eq!(settings.least_width, Cents(8));
        assert_eq!(settings.greatest_width, Cents(9));
        assert_eq!(settings.last_print, Some(Cents(10)));
        assert_eq!(settings.previous_close, Some(Cents(11)));
    }

    #[test]
    fn grids_step_as_listed() {
        let grids: Vec<Grid> = (1..=3).filter_map(Grid::from_number).collect();
        assert!((1..=1_000_000).all(|price| grids[0].holds(Cents(price))));
        for price in 1..=2_000 {
            let one = price < 300 || price % 5 == 0;
            let five = price % 5 == 0 && (price < 300 || price % 10 == 0);
            assert_eq!(grids[1].holds(Cents(price)), one, "grid 2 at {price}");
            assert_eq!(grids[2].holds(Cents(price)), five, "grid 3 at {price}");
        }
        let lowest: Vec<u64> = grids.iter().map(|grid| grid.lowest_step().0).collect();
        assert_eq!(lowest, [1, 1, 5]);
    }
}
