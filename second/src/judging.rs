//! How an incoming order is judged: the quotes it meets, the reasons to turn
//! it down, the bound it trades within and what becomes of its rest.

use crate::entry::{Life, Order, Side};
use crate::refusal::TurnedDown;
use crate::settings::{OptionType, Settings};
use crate::units::{Cents, Contracts};

/// The offer up to which a market sell without a bid is converted.
const CONVERTED_UP_TO: Cents = Cents(50);

/// The quote of the other markets.
#[derive(Clone, Copy, Debug, Default, PartialEq, Eq)]
pub struct Away {
    pub bid: Option<Cents>,
    pub offer: Option<Cents>,
}

impl Away {
    /// The away quote that an incoming order of this side would meet.
    pub fn opposite_of(self, side: Side) -> Option<Cents> {
        match side {
            Side::Buy => self.offer,
            Side::Sell => self.bid,
        }
    }
}

/// Everything an incoming order is judged by, taken before it trades.
#[derive(Clone, Copy, Debug)]
pub struct Scene {
    pub settings: Settings,
    pub open: bool,
    pub away: Away,
    pub nbb: Option<Cents>,
    pub nbo: Option<Cents>,
}

/// The higher of two bids, an absent one ignored.
pub fn higher_bid(one: Option<Cents>, other: Option<Cents>) -> Option<Cents> {
    one.into_iter().chain(other).max()
}

/// The lower of two offers, an absent one ignored.
pub fn lower_offer(one: Option<Cents>, other: Option<Cents>) -> Option<Cents> {
    one.into_iter().chain(other).min()
}

/// What becomes of an accepted entry.
#[derive(Clone, Copy, Debug, PartialEq, Eq, PartialOrd, Ord)]
pub enum Disposition {
    Filled = 0,
    Rests = 1,
    MarketOrNow = 2,
    BeyondDrill = 3,
    AtAway = 4,
    Cancelled = 5,
}

impl Disposition {
    /// The paper's number for this disposition.
    pub fn number(self) -> u32 {
        self as u32
    }
}

impl Scene {
    /// The order as it trades, or the first reason of 10 to 16 that applies.
    /// A converted market sell comes back as a limit.
    pub fn judge(&self, order: Order) -> Result<Order, TurnedDown> {
        if !self.open && (order.limit.is_none() || order.life == Life::Now) {
            return Err(TurnedDown::NotOpen);
        }
        let judged = match order.limit {
            Some(limit) => self.judge_limit(order, limit)?,
            None => self.judge_market(order)?,
        };
        if self.open && self.far(judged) {
            return Err(TurnedDown::FarPrice);
        }
        Ok(judged)
    }

    fn judge_limit(&self, order: Order, limit: Cents) -> Result<Order, TurnedDown> {
        if !self.settings.grid.holds(limit) {
            return Err(TurnedDown::OffGrid);
        }
        if self.buys_put(order) && limit >= self.settings.strike {
            return Err(TurnedDown::PutAtStrike);
        }
        Ok(order)
    }

    fn judge_market(&self, order: Order) -> Result<Order, TurnedDown> {
        match (order.side, self.nbb, self.nbo) {
            (Side::Buy, _, None) => Err(TurnedDown::NoOffer),
            (Side::Sell, None, Some(offer)) if offer > CONVERTED_UP_TO => Err(TurnedDown::NoBid),
            (Side::Sell, None, _) => Ok(self.converted(order)),
            (_, Some(bid), Some(offer)) if self.too_wide(bid, offer) => Err(TurnedDown::Width),
            _ => Ok(order),
        }
    }

    fn converted(&self, order: Order) -> Order {
        Order {
            limit: Some(self.settings.grid.lowest_step()),
            ..order
        }
    }

    fn buys_put(&self, order: Order) -> bool {
        order.side == Side::Buy && self.settings.option_type == OptionType::Put
    }

    /// The width test of 15; locked or crossed counts as width 0.
    pub fn too_wide(&self, bid: Cents, offer: Cents) -> bool {
        let width = offer.less(bid);
        width > self.settings.least_width
            && (width > self.settings.greatest_width || self.over_percent(bid, offer))
    }

    /// Whether the width is above x percent of the middle of the quotes.
    pub fn over_percent(&self, bid: Cents, offer: Cents) -> bool {
        200 * offer.less(bid).0 > self.settings.width_percent * (bid.0 + offer.0)
    }

    fn far(&self, order: Order) -> bool {
        let far_buffer = self.settings.far_buffer;
        match (order.side, order.limit) {
            (_, None) => false,
            (Side::Buy, Some(limit)) => self.nbo.is_some_and(|nbo| limit > nbo.plus(far_buffer)),
            (Side::Sell, Some(limit)) => self.nbb.is_some_and(|nbb| limit.plus(far_buffer) < nbb),
        }
    }

    /// The worst price at which the judged order trades.
    pub fn bound(&self, order: Order) -> Cents {
        match order.side {
            Side::Buy => self.buy_bound(order),
            Side::Sell => self.sell_bound(order),
        }
    }

    fn buy_bound(&self, order: Order) -> Cents {
        let drill = self.nbo.map(|nbo| nbo.plus(self.settings.drill_buffer));
        let below_strike = (order.limit.is_none() && self.buys_put(order))
            .then(|| self.settings.strike.less(Cents(1)));
        [order.limit, self.away.offer, drill, below_strike]
            .into_iter()
            .flatten()
            .min()
            .unwrap_or_default()
    }

    fn sell_bound(&self, order: Order) -> Cents {
        let lowest = order.limit.unwrap_or(Cents(1));
        let drill = self
            .nbb
            .map(|nbb| nbb.less(self.settings.drill_buffer))
            .filter(|drill| *drill >= Cents(1));
        [self.away.bid, drill]
            .into_iter()
            .flatten()
            .fold(lowest, Cents::max)
    }

    /// What becomes of the judged order with `left` contracts untraded.
    pub fn disposition(&self, order: Order, left: Contracts) -> Disposition {
        if left == Contracts(0) {
            return Disposition::Filled;
        }
        match order.limit {
            Some(limit) if order.life == Life::Day => self.rest_of(order.side, limit),
            _ => Disposition::MarketOrNow,
        }
    }

    fn rest_of(&self, side: Side, limit: Cents) -> Disposition {
        if self.beyond_drill(side, limit) {
            Disposition::BeyondDrill
        } else if self.at_or_beyond_away(side, limit) {
            Disposition::AtAway
        } else {
            Disposition::Rests
        }
    }

    fn beyond_drill(&self, side: Side, limit: Cents) -> bool {
        let drill_buffer = self.settings.drill_buffer;
        match side {
            Side::Buy => self.nbo.is_some_and(|nbo| limit > nbo.plus(drill_buffer)),
            Side::Sell => self.nbb.is_some_and(|nbb| limit.plus(drill_buffer) < nbb),
        }
    }

    fn at_or_beyond_away(&self, side: Side, limit: Cents) -> bool {
        self.away.opposite_of(side).is_some_and(|quote| match side {
            Side::Buy => limit >= quote,
            Side::Sell => limit <= quote,
        })
    }
}
