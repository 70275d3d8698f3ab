//! Outcomes of turns: rotation, reasons, dispositions, bounds and shares.

use std::collections::{BTreeMap, BTreeSet};

use second::book::{larger_first, Fill, Level, ROWS_EACH};
use second::entry::{Entry, Life, Order, Side};
use second::judging::{Disposition, Scene};
use second::opening::Opening;
use second::refusal::{Refusal, TurnedDown};
use second::session::{Accepted, Series, Turn, RECORDS};
use second::settings::{Allocation, OptionType};
use second::units::{total, Cents, Contracts};

use super::{grid_number, stretch_name, Counts};

/// Why a number given earlier rests no more.
#[derive(Clone, Copy)]
enum Fate {
    Filled,
    Cancelled,
    CancelledAtOnce,
    Gone,
}

/// What the book no longer tells about the series.
#[derive(Default)]
pub struct History {
    fates: BTreeMap<u32, Fate>,
    part_filled: BTreeSet<u32>,
    once_full: BTreeSet<usize>,
    /// The last number given out on the day before.
    given_before: u32,
}

impl History {
    /// The history of a new day, which knows nothing but the numbers that the
    /// day before gave out.
    pub fn new_day(before: Option<&Series>) -> History {
        History {
            given_before: before.map_or(0, Series::last_number),
            ..History::default()
        }
    }

    /// Takes note of an opening's fills and cancelled orders.
    pub fn opened(&mut self, opening: &Opening, after: Option<&Series>) {
        self.filled(&opening.fills, after);
        for number in &opening.gone {
            self.fates.insert(*number, Fate::Gone);
        }
    }

    fn filled(&mut self, fills: &[Fill], after: Option<&Series>) {
        for fill in fills {
            let rests = after.is_some_and(|series| series.book().order(fill.number).is_some());
            if rests {
                self.part_filled.insert(fill.number);
            } else {
                self.fates.insert(fill.number, Fate::Filled);
            }
        }
    }

    fn accepted(&mut self, tenant: usize, accepted: &Accepted, after: &Series) {
        self.filled(&accepted.fills, Some(after));
        let fate = match accepted.disposition {
            Disposition::Filled => Some(Fate::Filled),
            Disposition::Rests => None,
            Disposition::Cancelled => Some(Fate::Cancelled),
            _ => Some(Fate::CancelledAtOnce),
        };
        if let Some(fate) = fate {
            self.fates.insert(accepted.number, fate);
        } else if !accepted.fills.is_empty() {
            self.part_filled.insert(accepted.number);
        }
        if after.book().resting_of(tenant) >= ROWS_EACH {
            self.once_full.insert(tenant);
        }
    }
}

const PLAIN_NAMES: [&str; 84] = [
    "turn 5",
    "turn 21",
    "rotation takes the lane at its place",
    "rotation passes empty lanes",
    "rotation goes round",
    "rotation from tenant 8 to 0",
    "10 market buy",
    "10 market sell",
    "10 now limit buy",
    "10 now limit sell",
    "11 grid 2 from 300",
    "11 grid 3 below 300",
    "11 grid 3 from 300",
    "11 buy",
    "11 sell",
    "11 day",
    "11 now",
    "11 before opening",
    "11 after opening",
    "12 at the strike",
    "12 above the strike",
    "12 day",
    "12 now",
    "12 before opening",
    "13 day",
    "13 now",
    "13 with a bid",
    "13 without a bid",
    "14 day",
    "14 now",
    "14 with offer 51",
    "14 with a resting offer",
    "15 passed exactly at least",
    "15 passed exactly at greatest",
    "15 passed exactly at percent",
    "15 passed locked",
    "15 passed crossed",
    "17 buy limit",
    "17 sell limit",
    "17 converted",
    "17 before opening",
    "17 though it would trade in full",
    "17 with the table full",
    "17 with the table not full",
    "18 another tenant's",
    "18 filled",
    "18 cancelled before",
    "18 cancelled at once",
    "18 gone at the opening",
    "18 before opening",
    "22 the next number",
    "22 past the next number",
    "22 of the day before",
    "22 before any number was given",
    "22 before opening",
    "22 once open",
    "disposition 5 buy",
    "disposition 5 sell",
    "disposition 5 before opening",
    "disposition 5 of a part-filled order",
    "converted on grid 1",
    "converted on grid 2",
    "converted on grid 3",
    "converted without an offer",
    "converted with offer 50",
    "converted with a resting offer",
    "market buy of a put with strike 1",
    "bound by strike for a buy",
    "drill price below 1 for a sell",
    "trade with an own order",
    "trade while another tenant has 24 resting",
    "trade by a tenant with 24 resting",
    "freed row used again",
    "book of 216 resting orders",
    "10 though off the grid",
    "10 though at the strike of a put",
    "11 though at the strike of a put",
    "11 though far",
    "11 though 24 rest",
    "12 though far",
    "12 though 24 rest",
    "14 though 24 rest",
    "16 though 24 rest",
    "market passed though 24 rest",
];

const SIDED_NAMES: [&str; 30] = [
    "15 by greatest alone",
    "15 by percent alone",
    "15 by both",
    "15 day",
    "15 now",
    "16 day",
    "16 now",
    "16 one cent beyond",
    "16 passed exactly",
    "rests before opening",
    "rests before opening though it crosses the book",
    "rests before opening though it crosses the away quote",
    "limit exactly at the drill price",
    "limit exactly at the away quote",
    "bound by limit",
    "bound by away",
    "bound by drill",
    "levels traded 1",
    "levels traded 2",
    "levels traded 3",
    "levels traded 4 or more",
    "ten fills or more in a turn",
    "time level whole",
    "time level in part",
    "proportional level whole",
    "proportional level with whole parts alone",
    "proportional level with leftovers",
    "proportional leftovers by number among equals",
    "proportional row without a share",
    "proportional level of one order in part",
];

/// The dispositions that each kind of order can get: with fills, without.
const DISPOSITIONS: [(u32, &str, bool, bool); 10] = [
    (0, "limit day", true, false),
    (0, "limit now", true, false),
    (0, "market day", true, false),
    (0, "market now", true, false),
    (1, "limit day", true, true),
    (2, "limit now", true, true),
    (2, "market day", true, true),
    (2, "market now", true, true),
    (3, "limit day", true, true),
    (4, "limit day", true, true),
];

pub fn names() -> Vec<String> {
    let mut names: Vec<String> = PLAIN_NAMES.iter().map(|name| name.to_string()).collect();
    for side in [Side::Buy, Side::Sell] {
        names.extend(SIDED_NAMES.iter().map(|name| sided(name, side)));
        for (number, kind, with, without) in DISPOSITIONS {
            if with {
                names.push(disposition_name(number, kind, side, true));
            }
            if without {
                names.push(disposition_name(number, kind, side, false));
            }
        }
    }
    names.push(disposition_name(1, "converted day", Side::Sell, false));
    names.push(disposition_name(2, "converted now", Side::Sell, false));
    names
}

fn sided(name: &str, side: Side) -> String {
    match side {
        Side::Buy => format!("{name}, buy"),
        Side::Sell => format!("{name}, sell"),
    }
}

fn disposition_name(number: u32, kind: &str, side: Side, fills: bool) -> String {
    let fills = if fills { "with fills" } else { "without fills" };
    sided(&format!("disposition {number} {kind} {fills}"), side)
}

fn life_name(life: Life) -> &'static str {
    match life {
        Life::Day => "day",
        Life::Now => "now",
    }
}

pub fn witness(
    counts: &mut Counts,
    history: &mut History,
    before: Option<&Series>,
    after: Option<&Series>,
    outcome: &Result<Turn, Refusal>,
) {
    let turn = match outcome {
        Err(Refusal::NoSettings) => return counts.add("turn 21"),
        Err(_) => return counts.add("turn 5"),
        Ok(turn) => turn,
    };
    let (Some(before), Some(after)) = (before, after) else {
        return;
    };
    rotation(counts, before.rotation(), turn.tenant);
    let Some((tenant, entry)) = before.next_entry() else {
        return;
    };
    match &turn.outcome {
        Err(reason) => turned_down(counts, history, before, tenant, entry, *reason),
        Ok(accepted) => {
            match entry {
                Entry::New(order) => new_order(counts, before, after, tenant, order, accepted),
                Entry::Cancel { number } => cancelled(counts, history, before, number),
            }
            room(counts, history, before, after, tenant);
            history.accepted(tenant, accepted, after);
        }
    }
}

fn rotation(counts: &mut Counts, place: usize, tenant: usize) {
    counts.add(match tenant.cmp(&place) {
        std::cmp::Ordering::Equal => "rotation takes the lane at its place",
        std::cmp::Ordering::Greater => "rotation passes empty lanes",
        std::cmp::Ordering::Less => "rotation goes round",
    });
    counts.add_if(tenant == 8, "rotation from tenant 8 to 0");
}

fn turned_down(
    counts: &mut Counts,
    history: &History,
    series: &Series,
    tenant: usize,
    entry: Entry,
    reason: TurnedDown,
) {
    let scene = series.scene();
    if let Entry::New(order) = entry {
        also(counts, series, tenant, order, reason);
    }
    match (entry, reason) {
        (Entry::Cancel { number }, TurnedDown::NeverGiven) => {
            never_given(counts, history, series, number);
        }
        (Entry::Cancel { number }, _) => not_resting(counts, history, series, number),
        (Entry::New(order), TurnedDown::NotOpen) => not_open(counts, order),
        (Entry::New(order), TurnedDown::OffGrid) => off_grid(counts, &scene, order),
        (Entry::New(order), TurnedDown::PutAtStrike) => put_at_strike(counts, &scene, order),
        (Entry::New(order), TurnedDown::NoOffer) => {
            counts.add(format!("13 {}", life_name(order.life)));
            counts.add(if scene.nbb.is_some() {
                "13 with a bid"
            } else {
                "13 without a bid"
            });
        }
        (Entry::New(order), TurnedDown::NoBid) => {
            counts.add(format!("14 {}", life_name(order.life)));
            counts.add_if(scene.nbo == Some(Cents(51)), "14 with offer 51");
            let resting = series.book().best(Side::Sell).is_some();
            counts.add_if(resting, "14 with a resting offer");
        }
        (Entry::New(order), TurnedDown::Width) => width(counts, &scene, order),
        (Entry::New(order), TurnedDown::FarPrice) => far_price(counts, &scene, order),
        (Entry::New(order), _) => rows_used(counts, series, order),
    }
}

/// The later reasons that apply to the entry as well.
fn also(counts: &mut Counts, series: &Series, tenant: usize, order: Order, reason: TurnedDown) {
    let scene = series.scene();
    let settings = &scene.settings;
    let off_grid = order.limit.is_some_and(|limit| !settings.grid.holds(limit));
    let at_strike = order.side == Side::Buy
        && settings.option_type == OptionType::Put
        && order.limit.is_some_and(|limit| limit >= settings.strike);
    let far = order
        .limit
        .and_then(|limit| distance_into(&scene, order.side, limit))
        .is_some_and(|distance| scene.open && distance > settings.far_buffer);
    let full = order.life == Life::Day && series.book().resting_of(tenant) >= ROWS_EACH;
    let later: &[(bool, &str)] = match reason {
        TurnedDown::NotOpen => &[
            (off_grid, "10 though off the grid"),
            (at_strike, "10 though at the strike of a put"),
        ],
        TurnedDown::OffGrid => &[
            (at_strike, "11 though at the strike of a put"),
            (far, "11 though far"),
            (full, "11 though 24 rest"),
        ],
        TurnedDown::PutAtStrike => &[(far, "12 though far"), (full, "12 though 24 rest")],
        TurnedDown::NoBid => &[(full, "14 though 24 rest")],
        TurnedDown::FarPrice => &[(full, "16 though 24 rest")],
        _ => &[],
    };
    for (applies, name) in later {
        counts.add_if(*applies, *name);
    }
}

/// Why a number that was given out does not rest for the tenant. One of which
/// the history knows nothing is no outcome of the table, and told as unlisted.
fn not_resting(counts: &mut Counts, history: &History, series: &Series, number: u32) {
    let rests = series.book().order(number).is_some();
    counts.add(match history.fates.get(&number) {
        _ if rests => "18 another tenant's",
        None => "18 though never given",
        Some(Fate::Filled) => "18 filled",
        Some(Fate::Cancelled) => "18 cancelled before",
        Some(Fate::CancelledAtOnce) => "18 cancelled at once",
        Some(Fate::Gone) => "18 gone at the opening",
    });
    counts.add_if(!series.is_open(), "18 before opening");
}

/// Which number that was never given the cancel names, and when. One that rests
/// or has a fate was given: no outcome of the table, and told as unlisted.
fn never_given(counts: &mut Counts, history: &History, series: &Series, number: u32) {
    let given = series.last_number();
    counts.add(if number == given.saturating_add(1) {
        "22 the next number"
    } else {
        "22 past the next number"
    });
    counts.add_if(number <= history.given_before, "22 of the day before");
    counts.add_if(given == 0, "22 before any number was given");
    counts.add(if series.is_open() {
        "22 once open"
    } else {
        "22 before opening"
    });
    let known = series.book().order(number).is_some() || history.fates.contains_key(&number);
    counts.add_if(known, "22 though given out");
}

fn not_open(counts: &mut Counts, order: Order) {
    counts.add(match (order.limit, order.side) {
        (None, Side::Buy) => "10 market buy",
        (None, Side::Sell) => "10 market sell",
        (Some(_), Side::Buy) => "10 now limit buy",
        (Some(_), Side::Sell) => "10 now limit sell",
    });
}

fn off_grid(counts: &mut Counts, scene: &Scene, order: Order) {
    if let Some(limit) = order.limit {
        counts.add(format!("11 {}", stretch_name(scene.settings.grid, limit)));
    }
    counts.add(match order.side {
        Side::Buy => "11 buy",
        Side::Sell => "11 sell",
    });
    counts.add(format!("11 {}", life_name(order.life)));
    counts.add(if scene.open {
        "11 after opening"
    } else {
        "11 before opening"
    });
}

fn put_at_strike(counts: &mut Counts, scene: &Scene, order: Order) {
    counts.add(if order.limit == Some(scene.settings.strike) {
        "12 at the strike"
    } else {
        "12 above the strike"
    });
    counts.add(format!("12 {}", life_name(order.life)));
    counts.add_if(!scene.open, "12 before opening");
}

fn width(counts: &mut Counts, scene: &Scene, order: Order) {
    let (Some(nbb), Some(nbo)) = (scene.nbb, scene.nbo) else {
        return;
    };
    let greatest = nbo.less(nbb) > scene.settings.greatest_width;
    let name = match (greatest, scene.over_percent(nbb, nbo)) {
        (true, true) => "15 by both",
        (true, false) => "15 by greatest alone",
        _ => "15 by percent alone",
    };
    counts.add(sided(name, order.side));
    counts.add(sided(&format!("15 {}", life_name(order.life)), order.side));
}

/// How far the limit lies into the opposite side from NBO or NBB, if it does.
fn distance_into(scene: &Scene, side: Side, limit: Cents) -> Option<Cents> {
    match side {
        Side::Buy => limit.0.checked_sub(scene.nbo?.0).map(Cents),
        Side::Sell => scene.nbb?.0.checked_sub(limit.0).map(Cents),
    }
}

fn far_price(counts: &mut Counts, scene: &Scene, order: Order) {
    counts.add(sided(&format!("16 {}", life_name(order.life)), order.side));
    let just = scene.settings.far_buffer.plus(Cents(1));
    let distance = order
        .limit
        .and_then(|limit| distance_into(scene, order.side, limit));
    counts.add_if(
        distance == Some(just),
        sided("16 one cent beyond", order.side),
    );
}

fn rows_used(counts: &mut Counts, series: &Series, order: Order) {
    let scene = series.scene();
    counts.add(match (order.limit, order.side) {
        (None, _) => "17 converted",
        (Some(_), Side::Buy) => "17 buy limit",
        (Some(_), Side::Sell) => "17 sell limit",
    });
    counts.add_if(!scene.open, "17 before opening");
    let table_full = series.book().resting() == RECORDS;
    counts.add(if table_full {
        "17 with the table full"
    } else {
        "17 with the table not full"
    });
    let fills = would_trade(series, order);
    let whole = total(fills.iter().map(|fill| fill.quantity)) == order.size;
    counts.add_if(scene.open && whole, "17 though it would trade in full");
}

fn would_trade(series: &Series, order: Order) -> Vec<Fill> {
    let scene = series.scene();
    let mut book = series.book().clone();
    book.trade(
        order.side.opposite(),
        scene.bound(order),
        order.size,
        scene.settings.allocation,
    )
}

fn cancelled(counts: &mut Counts, history: &History, before: &Series, number: u32) {
    let side = before.book().spot(number).map(|spot| spot.side);
    counts.add(if side == Some(Side::Buy) {
        "disposition 5 buy"
    } else {
        "disposition 5 sell"
    });
    counts.add_if(!before.is_open(), "disposition 5 before opening");
    counts.add_if(
        history.part_filled.contains(&number),
        "disposition 5 of a part-filled order",
    );
}

fn new_order(
    counts: &mut Counts,
    before: &Series,
    after: &Series,
    tenant: usize,
    order: Order,
    accepted: &Accepted,
) {
    let scene = before.scene();
    if !scene.open {
        return rests_before_opening(counts, before, order);
    }
    let Ok(judged) = scene.judge(order) else {
        return;
    };
    disposition(counts, order, judged, accepted);
    let full = before.book().resting_of(tenant) >= ROWS_EACH;
    counts.add_if(
        full && judged.limit.is_none() && judged.life == Life::Day,
        "market passed though 24 rest",
    );
    passed(counts, &scene, order, judged);
    if order.limit.is_none() && judged.limit.is_some() {
        converted(counts, before);
    }
    bounds(counts, &scene, after, judged, accepted);
    levels(counts, before, order.side, &accepted.fills);
    company(counts, before, tenant, &accepted.fills);
}

fn rests_before_opening(counts: &mut Counts, before: &Series, order: Order) {
    let Some(limit) = order.limit else {
        return;
    };
    let reaches = |quote: Option<Cents>| match order.side {
        Side::Buy => quote.is_some_and(|offer| limit >= offer),
        Side::Sell => quote.is_some_and(|bid| limit <= bid),
    };
    counts.add(sided("rests before opening", order.side));
    counts.add_if(
        reaches(before.book().best(order.side.opposite())),
        sided(
            "rests before opening though it crosses the book",
            order.side,
        ),
    );
    counts.add_if(
        reaches(before.away_quote().opposite_of(order.side)),
        sided(
            "rests before opening though it crosses the away quote",
            order.side,
        ),
    );
}

fn disposition(counts: &mut Counts, order: Order, judged: Order, accepted: &Accepted) {
    let kind = match (order.limit, judged.limit) {
        (Some(_), _) => "limit",
        (None, Some(_)) => "converted",
        (None, None) => "market",
    };
    let kind = format!("{kind} {}", life_name(order.life));
    let fills = !accepted.fills.is_empty();
    let number = accepted.disposition.number();
    counts.add(disposition_name(number, &kind, order.side, fills));
}

/// What only just passes 15 or 16, or lies exactly at a price that matters.
fn passed(counts: &mut Counts, scene: &Scene, order: Order, judged: Order) {
    if let Some(limit) = order.limit {
        passed_limit(counts, scene, order.side, limit);
    } else if judged.limit.is_none() {
        passed_width(counts, scene);
    }
}

fn passed_limit(counts: &mut Counts, scene: &Scene, side: Side, limit: Cents) {
    let distance = distance_into(scene, side, limit);
    counts.add_if(
        distance == Some(scene.settings.far_buffer),
        sided("16 passed exactly", side),
    );
    counts.add_if(
        distance == Some(scene.settings.drill_buffer),
        sided("limit exactly at the drill price", side),
    );
    counts.add_if(
        scene.away.opposite_of(side) == Some(limit),
        sided("limit exactly at the away quote", side),
    );
}

fn passed_width(counts: &mut Counts, scene: &Scene) {
    let (Some(nbb), Some(nbo)) = (scene.nbb, scene.nbo) else {
        return;
    };
    let width = nbo.less(nbb);
    let settings = &scene.settings;
    counts.add_if(nbb == nbo, "15 passed locked");
    counts.add_if(nbb > nbo, "15 passed crossed");
    let some = width > Cents(0);
    let over_least = width > settings.least_width;
    counts.add_if(
        some && width == settings.least_width,
        "15 passed exactly at least",
    );
    counts.add_if(
        over_least && width == settings.greatest_width,
        "15 passed exactly at greatest",
    );
    let percent = 200 * width.0 == settings.width_percent * (nbb.0 + nbo.0);
    counts.add_if(over_least && percent, "15 passed exactly at percent");
}

fn converted(counts: &mut Counts, before: &Series) {
    let scene = before.scene();
    let grid = grid_number(scene.settings.grid);
    counts.add(format!("converted on grid {grid}"));
    counts.add_if(scene.nbo.is_none(), "converted without an offer");
    counts.add_if(scene.nbo == Some(Cents(50)), "converted with offer 50");
    let resting = before.book().best(Side::Sell).is_some();
    counts.add_if(resting, "converted with a resting offer");
}

/// Which bound kept an order from resting orders beyond it.
fn bounds(counts: &mut Counts, scene: &Scene, after: &Series, judged: Order, accepted: &Accepted) {
    let side = judged.side;
    let stopped = accepted.filled < judged.size && after.book().best(side.opposite()).is_some();
    let (drill, strike) = match side {
        Side::Buy => {
            let put = judged.limit.is_none() && scene.settings.option_type == OptionType::Put;
            let drill = scene.nbo.map(|nbo| nbo.plus(scene.settings.drill_buffer));
            (drill, put.then(|| scene.settings.strike.less(Cents(1))))
        }
        Side::Sell => (
            scene.nbb.map(|nbb| nbb.less(scene.settings.drill_buffer)),
            None,
        ),
    };
    counts.add_if(
        strike == Some(Cents(0)),
        "market buy of a put with strike 1",
    );
    counts.add_if(
        side == Side::Sell && drill == Some(Cents(0)) && !accepted.fills.is_empty(),
        "drill price below 1 for a sell",
    );
    let bound = Some(scene.bound(judged));
    let parts = [
        (judged.limit, sided("bound by limit", side)),
        (scene.away.opposite_of(side), sided("bound by away", side)),
        (drill, sided("bound by drill", side)),
        (strike, "bound by strike for a buy".to_string()),
    ];
    let binding: Vec<&String> = parts
        .iter()
        .filter(|(part, _)| *part == bound)
        .map(|(_, name)| name)
        .collect();
    if let ([only], true) = (binding.as_slice(), stopped) {
        counts.add(only.as_str());
    }
}

fn levels(counts: &mut Counts, before: &Series, side: Side, fills: &[Fill]) {
    let mut prices: Vec<Cents> = fills.iter().map(|fill| fill.price).collect();
    prices.dedup();
    let name = match prices.len() {
        0 => return,
        1 => "levels traded 1",
        2 => "levels traded 2",
        3 => "levels traded 3",
        _ => "levels traded 4 or more",
    };
    counts.add(sided(name, side));
    counts.add_if(
        fills.len() >= 10,
        sided("ten fills or more in a turn", side),
    );
    for price in prices {
        if let Some(level) = before.book().levels(side.opposite()).get(&price) {
            let traded: Vec<&Fill> = fills.iter().filter(|fill| fill.price == price).collect();
            one_level(counts, before, side, level, &traded);
        }
    }
}

fn one_level(counts: &mut Counts, before: &Series, side: Side, level: &Level, traded: &[&Fill]) {
    let whole = total(level.values().map(|order| order.size));
    let quantity = total(traded.iter().map(|fill| fill.quantity));
    let all = quantity == whole;
    match (before.accepted_settings().allocation, all) {
        (Allocation::Time, true) => counts.add(sided("time level whole", side)),
        (Allocation::Time, false) => counts.add(sided("time level in part", side)),
        (Allocation::Proportional, true) => counts.add(sided("proportional level whole", side)),
        (Allocation::Proportional, false) => in_part(counts, side, level, quantity, whole),
    }
    counts.add_if(
        before.accepted_settings().allocation == Allocation::Proportional
            && !all
            && traded.len() < level.len(),
        sided("proportional row without a share", side),
    );
}

fn in_part(counts: &mut Counts, side: Side, level: &Level, quantity: Contracts, whole: Contracts) {
    if level.len() == 1 {
        return counts.add(sided("proportional level of one order in part", side));
    }
    let parts = level
        .values()
        .map(|order| Contracts(quantity.0 * order.size.0 / whole.0.max(1)));
    let leftover = usize::try_from(quantity.less(total(parts)).0).unwrap_or(0);
    if leftover == 0 {
        return counts.add(sided("proportional level with whole parts alone", side));
    }
    counts.add(sided("proportional level with leftovers", side));
    let order = larger_first(level);
    let size = |place: usize| order.get(place).map(|number| level[number].size);
    counts.add_if(
        size(leftover - 1) == size(leftover),
        sided("proportional leftovers by number among equals", side),
    );
}

/// Who trades with whom.
fn company(counts: &mut Counts, before: &Series, tenant: usize, fills: &[Fill]) {
    if fills.is_empty() {
        return;
    }
    let own = fills.iter().any(|fill| fill.tenant == tenant);
    counts.add_if(own, "trade with an own order");
    let full = |tenant: usize| before.book().resting_of(tenant) >= ROWS_EACH;
    let other = (0..9).any(|other| other != tenant && full(other));
    counts.add_if(other, "trade while another tenant has 24 resting");
    counts.add_if(full(tenant), "trade by a tenant with 24 resting");
}

/// The rows in use.
fn room(counts: &mut Counts, history: &History, before: &Series, after: &Series, tenant: usize) {
    let full = after.book().resting_of(tenant) >= ROWS_EACH;
    let was_less = before.book().resting_of(tenant) < ROWS_EACH;
    let again = history.once_full.contains(&tenant);
    counts.add_if(full && was_less && again, "freed row used again");
    let all = after.book().resting() == RECORDS;
    counts.add_if(all, "book of 216 resting orders");
}
