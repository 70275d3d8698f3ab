//! The session and its calls: settings, away, submit, turn and open.

use std::collections::VecDeque;

use crate::book::{Book, Fill, Resting, Spot, ROWS_EACH};
use crate::entry::{Entry, Life, Order, Side, ENTRY_NUMBERS};
use crate::judging::{higher_bid, lower_offer, Away, Disposition, Scene};
use crate::opening::{open_at, opening_price, Opening};
use crate::refusal::{Refusal, TurnedDown};
use crate::settings::{Settings, SETTINGS_NUMBERS};
use crate::units::{total, Cents, Contracts, MOST_CENTS, TENANTS};

/// How many entries a lane holds.
pub const LANE_ENTRIES: usize = 64;

/// The largest count of a bulk message.
pub const MOST_COUNT: u32 = 20;

/// How many fill records a turn or an opening must be lent.
pub const RECORDS: usize = TENANTS * ROWS_EACH;

/// The turns taken in all from which a further one is refused.
pub const MOST_TURNS: u128 = 1_000_000_000_000_000_000;

/// What a tenant has done since the settings were accepted.
#[derive(Clone, Copy, Debug, Default, PartialEq, Eq)]
pub struct Tally {
    pub turns: u64,
    pub bought: u128,
    pub sold: u128,
}

impl Tally {
    fn add(&mut self, side: Side, quantity: Contracts) {
        match side {
            Side::Buy => self.bought += u128::from(quantity.0),
            Side::Sell => self.sold += u128::from(quantity.0),
        }
    }
}

/// A taken turn.
#[derive(Clone, Debug, PartialEq, Eq)]
pub struct Turn {
    pub tenant: usize,
    pub outcome: Result<Accepted, TurnedDown>,
}

/// What became of an accepted entry.
#[derive(Clone, Debug, PartialEq, Eq)]
pub struct Accepted {
    pub number: u32,
    pub filled: Contracts,
    pub disposition: Disposition,
    pub fills: Vec<Fill>,
}

/// What an order number is to a tenant who asks for it.
#[derive(Clone, Copy, Debug, PartialEq, Eq)]
pub enum Lookup {
    /// It rests, and is this tenant's.
    RestsHere,
    /// An order has got it since the settings were accepted, and none of this
    /// tenant rests under it.
    GivenOut,
    /// No order has got it since the settings were accepted.
    NeverGiven,
}

/// One option series under accepted settings.
#[derive(Clone, Debug, PartialEq, Eq)]
pub struct Series {
    settings: Settings,
    away: Away,
    book: Book,
    lanes: [VecDeque<Entry>; TENANTS],
    rotation: usize,
    last_number: u32,
    open: bool,
    tallies: [Tally; TENANTS],
}

/// The market of one option series, without any before settings are accepted.
#[derive(Clone, Debug, Default, PartialEq, Eq)]
pub struct Session {
    series: Option<Series>,
}

impl Session {
    /// The present series.
    pub fn series(&self) -> Option<&Series> {
        self.series.as_ref()
    }

    /// The tallies of the present series by tenant; zeros where there is none.
    pub fn tallies(&self) -> [Tally; TENANTS] {
        self.series
            .as_ref()
            .map_or_else(Default::default, |series| series.tallies)
    }

    /// Accepts settings and starts the series anew.
    pub fn settings(&mut self, numbers: &[u32; SETTINGS_NUMBERS]) -> Result<(), Refusal> {
        let settings = Settings::from_numbers(numbers)?;
        self.series = Some(Series::new(settings));
        Ok(())
    }

    /// Replaces the away quote; 0 says absent.
    pub fn away(&mut self, bid: u32, offer: u32) -> Result<(), Refusal> {
        let series = self.present()?;
        if bid > MOST_CENTS || offer > MOST_CENTS {
            return Err(Refusal::AwayQuote);
        }
        series.away = Away {
            bid: Cents::unless_absent(bid),
            offer: Cents::unless_absent(offer),
        };
        Ok(())
    }

    /// Puts `count` entries, six of the lent numbers each, behind those
    /// waiting in the tenant's lane: all of them or none.
    pub fn submit(&mut self, tenant: u32, count: u32, numbers: &[u32]) -> Result<(), Refusal> {
        let series = self.present()?;
        let lane = usize::try_from(tenant)
            .ok()
            .and_then(|tenant| series.lanes.get_mut(tenant))
            .ok_or(Refusal::Tenant)?;
        let entries = read_entries(count, numbers)?;
        if lane.len() + entries.len() > LANE_ENTRIES {
            return Err(Refusal::LaneFull);
        }
        lane.extend(entries);
        Ok(())
    }

    /// Takes a turn, with room for `records` fill records.
    pub fn turn(&mut self, records: usize) -> Result<Turn, Refusal> {
        let series = self.present()?;
        let tenant = series.next_tenant().ok_or(Refusal::NoEntryWaiting)?;
        if records < RECORDS {
            return Err(Refusal::FewRecords);
        }
        if series.turns_taken() >= MOST_TURNS {
            return Err(Refusal::TurnsUsedUp);
        }
        let entry = series.lanes[tenant]
            .pop_front()
            .ok_or(Refusal::NoEntryWaiting)?;
        series.rotation = (tenant + 1) % TENANTS;
        series.tallies[tenant].turns += 1;
        let outcome = series.take(tenant, entry);
        Ok(Turn { tenant, outcome })
    }

    /// Opens the series, with room for `records` fill records.
    pub fn open(&mut self, records: usize) -> Result<Opening, Refusal> {
        let series = self.present()?;
        if series.open {
            return Err(Refusal::AlreadyOpen);
        }
        if records < RECORDS {
            return Err(Refusal::FewRecords);
        }
        let opening = series.opening()?;
        series.open = true;
        Ok(opening)
    }

    fn present(&mut self) -> Result<&mut Series, Refusal> {
        self.series.as_mut().ok_or(Refusal::NoSettings)
    }
}

fn read_entries(count: u32, numbers: &[u32]) -> Result<Vec<Entry>, Refusal> {
    if !(1..=MOST_COUNT).contains(&count) {
        return Err(Refusal::Count);
    }
    if numbers.len() != count as usize * ENTRY_NUMBERS {
        return Err(Refusal::Count);
    }
    numbers
        .chunks_exact(ENTRY_NUMBERS)
        .map(read_entry)
        .collect()
}

fn read_entry(numbers: &[u32]) -> Result<Entry, Refusal> {
    let six = numbers.try_into().map_err(|_| Refusal::Count)?;
    Entry::from_numbers(six)
}

impl Series {
    fn new(settings: Settings) -> Series {
        Series {
            settings,
            away: Away::default(),
            book: Book::default(),
            lanes: Default::default(),
            rotation: 0,
            last_number: 0,
            open: false,
            tallies: Default::default(),
        }
    }

    pub fn accepted_settings(&self) -> &Settings {
        &self.settings
    }

    pub fn away_quote(&self) -> Away {
        self.away
    }

    pub fn book(&self) -> &Book {
        &self.book
    }

    /// How many entries wait in the tenant's lane.
    pub fn waiting(&self, tenant: usize) -> usize {
        self.lanes.get(tenant).map_or(0, VecDeque::len)
    }

    pub fn rotation(&self) -> usize {
        self.rotation
    }

    /// The number given last, 0 when none is given yet.
    pub fn last_number(&self) -> u32 {
        self.last_number
    }

    /// Looks a number up for this tenant. Numbers are given in turn from 1 on,
    /// so that all up to the last one are given out, also when the book has
    /// nothing left of their orders.
    pub fn lookup(&self, tenant: usize, number: u32) -> Lookup {
        match self.book.order(number) {
            Some(order) if order.tenant == tenant => Lookup::RestsHere,
            _ if (1..=self.last_number).contains(&number) => Lookup::GivenOut,
            _ => Lookup::NeverGiven,
        }
    }

    pub fn is_open(&self) -> bool {
        self.open
    }

    pub fn tally(&self, tenant: usize) -> Option<Tally> {
        self.tallies.get(tenant).copied()
    }

    /// The entry the next turn takes, and whose it is.
    pub fn next_entry(&self) -> Option<(usize, Entry)> {
        let tenant = self.next_tenant()?;
        Some((tenant, *self.lanes[tenant].front()?))
    }

    /// What an incoming order would be judged by at present.
    pub fn scene(&self) -> Scene {
        Scene {
            settings: self.settings,
            open: self.open,
            away: self.away,
            nbb: higher_bid(self.book.best(Side::Buy), self.away.bid),
            nbo: lower_offer(self.book.best(Side::Sell), self.away.offer),
        }
    }

    /// The first tenant at or after the rotation place with an entry waiting.
    fn next_tenant(&self) -> Option<usize> {
        (self.rotation..TENANTS)
            .chain(0..self.rotation)
            .find(|tenant| !self.lanes[*tenant].is_empty())
    }

    fn turns_taken(&self) -> u128 {
        self.tallies
            .iter()
            .map(|tally| u128::from(tally.turns))
            .sum()
    }

    fn take(&mut self, tenant: usize, entry: Entry) -> Result<Accepted, TurnedDown> {
        match entry {
            Entry::New(order) => self.take_order(tenant, order),
            Entry::Cancel { number } => self.take_cancel(tenant, number),
        }
    }

    fn take_cancel(&mut self, tenant: usize, number: u32) -> Result<Accepted, TurnedDown> {
        match self.lookup(tenant, number) {
            Lookup::RestsHere => Ok(self.cancel(number)),
            Lookup::GivenOut => Err(TurnedDown::NotRestingHere),
            Lookup::NeverGiven => Err(TurnedDown::NeverGiven),
        }
    }

    /// Takes a resting order out of the book, by its tenant's wish.
    fn cancel(&mut self, number: u32) -> Accepted {
        self.book.remove(number);
        Accepted {
            number,
            filled: Contracts(0),
            disposition: Disposition::Cancelled,
            fills: Vec::new(),
        }
    }

    fn take_order(&mut self, tenant: usize, given: Order) -> Result<Accepted, TurnedDown> {
        let scene = self.scene();
        let order = scene.judge(given)?;
        let might_rest = order.life == Life::Day && order.limit.is_some();
        if might_rest && self.book.resting_of(tenant) >= ROWS_EACH {
            return Err(TurnedDown::RowsUsed);
        }
        let number = self
            .last_number
            .checked_add(1)
            .ok_or(TurnedDown::NumbersUsedUp)?;
        self.last_number = number;
        let fills = self.trade(tenant, order, &scene);
        let filled = total(fills.iter().map(|fill| fill.quantity));
        let disposition = self.settle(tenant, number, order, filled, &scene);
        Ok(Accepted {
            number,
            filled,
            disposition,
            fills,
        })
    }

    /// Trades a judged order; before the opening none trades.
    fn trade(&mut self, tenant: usize, order: Order, scene: &Scene) -> Vec<Fill> {
        if !self.open {
            return Vec::new();
        }
        let resting_side = order.side.opposite();
        let allocation = self.settings.allocation;
        let bound = scene.bound(order);
        let fills = self.book.trade(resting_side, bound, order.size, allocation);
        for fill in &fills {
            self.tallies[fill.tenant].add(resting_side, fill.quantity);
            self.tallies[tenant].add(order.side, fill.quantity);
        }
        fills
    }

    /// Finds the disposition and lets the order rest if that is it.
    fn settle(
        &mut self,
        tenant: usize,
        number: u32,
        order: Order,
        filled: Contracts,
        scene: &Scene,
    ) -> Disposition {
        let left = order.size.less(filled);
        let disposition = if self.open {
            scene.disposition(order, left)
        } else {
            Disposition::Rests
        };
        if let (Disposition::Rests, Some(price)) = (disposition, order.limit) {
            let spot = Spot {
                side: order.side,
                price,
            };
            self.book.rest(number, spot, Resting { tenant, size: left });
        }
        disposition
    }

    fn opening(&mut self) -> Result<Opening, Refusal> {
        if !self.book.crosses() {
            return Ok(Opening::default());
        }
        let (_, price) = opening_price(self.away, &self.settings).ok_or(Refusal::NoOpeningPrice)?;
        let opening = open_at(&mut self.book, price);
        for (place, fill) in opening.fills.iter().enumerate() {
            let side = if place < opening.bought {
                Side::Buy
            } else {
                Side::Sell
            };
            self.tallies[fill.tenant].add(side, fill.quantity);
        }
        Ok(opening)
    }

    #[cfg(test)]
    pub(crate) fn set_last_number(&mut self, number: u32) {
        self.last_number = number;
    }

    #[cfg(test)]
    pub(crate) fn set_turns(&mut self, tenant: usize, turns: u64) {
        self.tallies[tenant].turns = turns;
    }
}

#[cfg(test)]
impl Session {
    pub(crate) fn series_mut(&mut self) -> &mut Series {
        self.series.as_mut().expect("accepted settings")
    }
}

#[cfg(test)]
mod tests {
    use super::*;
    use crate::tape::run;
    use crate::words::make;

    /// Settings of time class on grid 1, with a last print of 105.
    const SETTINGS: &str = "settings allocation time grid 1 type call strike 10000 drill 10 \
                            far 20 percent 10 least 25 greatest 500 print 105 close 0\n";

    /// The session after a tape in words, and the lines printed.
    fn printed(words: &str) -> (Session, String) {
        let (mut session, mut lines) = (Session::default(), Vec::new());
        run(&mut session, &make(words).expect("words"), &mut lines).expect("memory");
        (session, String::from_utf8(lines).expect("lines"))
    }

    fn after(words: &str) -> Session {
        printed(words).0
    }

    /// The code of a turn in which this tenant cancels the number. It is taken
    /// on a copy of the session, so that many cancels are asked of the same book.
    fn code(session: &Session, tenant: u32, number: u32) -> u32 {
        let mut session = session.clone();
        assert_eq!(session.submit(tenant, 1, &[3, 0, 0, 0, 0, number]), Ok(()));
        let book = session.series_mut().book.clone();
        let given = session.series_mut().last_number;
        let turn = session.turn(RECORDS).expect("a turn");
        assert_eq!(turn.tenant, tenant as usize);
        assert_eq!(session.series_mut().last_number, given);
        match turn.outcome {
            Ok(accepted) => {
                assert_eq!(accepted.number, number);
                assert_eq!(accepted.disposition, Disposition::Cancelled);
                0
            }
            Err(reason) => {
                assert_eq!(session.series_mut().book, book);
                reason.number()
            }
        }
    }

    fn codes(session: &Session, tenant: u32, numbers: &[u32]) -> Vec<u32> {
        numbers
            .iter()
            .map(|number| code(session, tenant, *number))
            .collect()
    }

    /// Before the opening and after it, which changes nothing in a book that
    /// does not cross.
    fn unopened_and_open(words: &str) -> [Session; 2] {
        [after(words), after(&format!("{words}open\n"))]
    }

    #[test]
    fn before_any_order_every_number_is_22() {
        for session in unopened_and_open(SETTINGS) {
            assert_eq!(codes(&session, 0, &[1, 2, 3, u32::MAX]), [22; 4]);
        }
    }

    #[test]
    fn numbers_below_the_next_are_given_out_and_from_it_on_never() {
        let words = format!(
            "{SETTINGS}submit tenant 4: buy day 1 at 90, buy day 1 at 91, sell day 1 at 99\n\
             turn times 3\n"
        );
        let around = [1, 3, 4, 5, u32::MAX];
        for session in unopened_and_open(&words) {
            assert_eq!(codes(&session, 4, &around), [0, 0, 22, 22, 22]);
            assert_eq!(codes(&session, 5, &around), [18, 18, 22, 22, 22]);
        }
    }

    #[test]
    fn entries_turned_down_and_cancels_give_no_number_out() {
        let words = format!(
            "{SETTINGS}submit tenant 2: buy day 1 at 90, sell now 1 at 90, cancel 1, cancel 2\n\
             turn times 4\n"
        );
        for session in unopened_and_open(&words) {
            assert_eq!(codes(&session, 2, &[1, 2, 3]), [18, 22, 22]);
        }
    }

    #[test]
    fn a_cancel_is_judged_at_its_turn() {
        let mut session = after(&format!(
            "{SETTINGS}submit tenant 3: cancel 1, buy day 1 at 90, cancel 1, cancel 1\n"
        ));
        let mut turn = || session.turn(RECORDS).unwrap().outcome;
        assert_eq!(turn(), Err(TurnedDown::NeverGiven));
        assert_eq!(turn().unwrap().number, 1);
        assert_eq!(turn().unwrap().number, 1);
        assert_eq!(turn(), Err(TurnedDown::NotRestingHere));
    }

    #[test]
    fn numbers_of_the_day_before_are_22_until_given_again() {
        let three = "submit tenant 0: buy day 1 at 90, buy day 1 at 90, buy day 1 at 90\n\
                     turn times 3\n";
        let yesterday = format!("{SETTINGS}{three}");
        let refused = SETTINGS.replace("grid 1", "grid 4");
        let same_day = after(&format!("{yesterday}{refused}"));
        assert_eq!(codes(&same_day, 0, &[1, 3, 4]), [0, 0, 22]);
        assert_eq!(codes(&same_day, 6, &[1, 3, 4]), [18, 18, 22]);
        let words = format!("{yesterday}{SETTINGS}");
        for session in unopened_and_open(&words) {
            assert_eq!(codes(&session, 0, &[1, 2, 3, 4]), [22; 4]);
        }
        let again = format!("{words}submit tenant 6: sell day 1 at 99\nturn\n");
        for session in unopened_and_open(&again) {
            assert_eq!(codes(&session, 0, &[1, 2, 3, 4]), [18, 22, 22, 22]);
            assert_eq!(codes(&session, 6, &[1, 2, 3, 4]), [0, 22, 22, 22]);
        }
    }

    #[test]
    fn orders_filled_whole_are_18_and_part_filled_ones_until_cancelled() {
        let words = format!(
            "{SETTINGS}open\nsubmit tenant 0: sell day 5 at 100, sell day 5 at 101\nturn times 2\n\
             submit tenant 1: buy now 7 at 101\nturn\n"
        );
        let (session, lines) = printed(&words);
        assert!(lines.ends_with("turn 1 0 3 7 0\nfill 1 0 5 100\nfill 2 0 2 101\nend\n"));
        assert_eq!(codes(&session, 0, &[1, 2, 3, 4]), [18, 0, 18, 22]);
        assert_eq!(codes(&session, 1, &[1, 2, 3, 4]), [18, 18, 18, 22]);
        let (session, lines) = printed(&format!("{words}submit tenant 0: cancel 2\nturn\n"));
        assert!(lines.ends_with("turn 0 0 2 0 5\nend\n"));
        assert_eq!(codes(&session, 0, &[1, 2, 3, 4]), [18, 18, 18, 22]);
    }

    #[test]
    fn orders_cancelled_at_once_are_18() {
        let words = format!(
            "{SETTINGS}open\nsubmit tenant 1: sell day 1 at 100\nturn\n\
             submit tenant 0: buy now 1 at 90, buy day 3 at 115\nturn times 2\n\
             away bid 0 offer 100\nsubmit tenant 0: buy day 1 at 100\nturn\n"
        );
        let (session, lines) = printed(&words);
        let at_once = ["turn 0 0 2 0 2\n", "turn 0 0 3 1 3\n", "turn 0 0 4 0 4\n"];
        assert!(at_once.iter().all(|line| lines.contains(line)), "{lines}");
        assert_eq!(codes(&session, 0, &[2, 3, 4, 5]), [18, 18, 18, 22]);
    }

    #[test]
    fn orders_gone_at_the_opening_are_18() {
        let words = format!(
            "{SETTINGS}submit tenant 0: buy day 5 at 110, buy day 5 at 105, sell day 4 at 104, \
             sell day 3 at 108\nturn times 4\n"
        );
        let numbers = [1, 2, 3, 4, 5];
        assert_eq!(codes(&after(&words), 0, &numbers), [0, 0, 0, 0, 22]);
        let (session, lines) = printed(&format!("{words}open\n"));
        assert!(lines.ends_with("fill 1 0 4 105\nfill 3 0 4 105\ngone 1\nend\n"));
        assert_eq!(codes(&session, 0, &numbers), [18, 0, 18, 0, 22]);
    }

    #[test]
    fn once_all_numbers_are_used_none_is_22() {
        let mut session = after(SETTINGS);
        session.series_mut().set_last_number(u32::MAX - 1);
        let last_two = [u32::MAX - 1, u32::MAX];
        assert_eq!(codes(&session, 0, &last_two), [18, 22]);
        let two = [[1, 1, 1, 100, 1, 0]; 2].concat();
        assert_eq!(session.submit(0, 2, &two), Ok(()));
        assert!(session.turn(RECORDS).unwrap().outcome.is_ok());
        let used_up = session.turn(RECORDS).unwrap().outcome;
        assert_eq!(used_up, Err(TurnedDown::NumbersUsedUp));
        assert_eq!(codes(&session, 0, &last_two), [18, 0]);
        assert_eq!(codes(&session, 1, &[1, 2, 3, u32::MAX]), [18; 4]);
    }

    #[test]
    fn a_lookup_says_which_of_three_it_is() {
        let words = format!("{SETTINGS}submit tenant 4: buy day 1 at 90\nturn\n");
        let mut session = after(&words);
        let series = session.series_mut();
        assert_eq!(series.lookup(4, 1), Lookup::RestsHere);
        assert_eq!(series.lookup(3, 1), Lookup::GivenOut);
        assert_eq!(series.lookup(4, 2), Lookup::NeverGiven);
        assert_eq!(series.lookup(4, 0), Lookup::NeverGiven);
        series.cancel(1);
        assert_eq!(series.lookup(4, 1), Lookup::GivenOut);
    }
}
