//! Outcomes of openings: sources, quotes, grids, imbalances and cancelled
//! orders.

use second::entry::Side;
use second::judging::Away;
use second::opening::{candidates, eligible, midpoint, minimum_amount, opening_price, valid};
use second::opening::{Opening, Source};
use second::refusal::Refusal;
use second::session::Series;
use second::settings::{Allocation, Grid};
use second::units::{Cents, Contracts};

use super::{grid_number, stretch_name, Counts};

const AMOUNTS: [u64; 7] = [25, 40, 50, 80, 100, 150, 200];

const QUOTES: [&str; 4] = ["two quotes", "a bid alone", "an offer alone", "no quote"];

/// The stretches of the grids that step by a cent.
const BY_A_CENT: [&str; 3] = ["grid 1 below 300", "grid 1 from 300", "grid 2 below 300"];

/// The stretches of the grids that step by more than a cent.
const BY_MORE: [&str; 3] = ["grid 2 from 300", "grid 3 below 300", "grid 3 from 300"];

/// Where half the sum of two quotes lies beside a step, on any stretch.
const BESIDE: [&str; 2] = ["on", "half a cent above"];

/// The same where a step is wider than a cent alone.
const BESIDE_WIDER: [&str; 3] = [
    "a cent above",
    "more than a cent above",
    "half a cent below",
];

/// The lowest and the highest sum of two quotes around the turn of the grids,
/// and the name of half of it.
const AT_THE_TURN: [(u64, u64, &str); 3] = [
    (598, 599, "299 to 299.5"),
    (600, 609, "300 to 304.5"),
    (610, 619, "305 to 309.5"),
];

/// How a grid keeps two quotes from opening at their midpoint.
const KEPT_FROM: [&str; 3] = [
    "without a midpoint in grid 3",
    "past a midpoint below the bid in grid 2",
    "past a midpoint below the bid in grid 3",
];

const PLAIN_NAMES: [&str; 36] = [
    "open 9",
    "open 21",
    "open 20 without any candidate",
    "open 20 under a crossed away quote",
    "open 0 with an empty book",
    "open 0 with buys alone",
    "open 0 with sells alone",
    "open 0 not crossed",
    "open 0 not crossed under a crossed away quote",
    "opening at the midpoint",
    "opening at the midpoint of a locked away quote",
    "opening at the midpoint 5 in grid 3",
    "opening at a midpoint valid once rounded in grid 2",
    "opening at a midpoint valid once rounded in grid 3",
    "opening at the close past a print not valid",
    "opening at the close without a print",
    "opening price within the amount of the bid alone",
    "opening price within the amount of the offer alone",
    "opening at a print off the grid",
    "opening at a close off the grid",
    "opening price 1",
    "opening price 1,000,000",
    "opening in the time class",
    "opening in the proportional class",
    "opening with volume 0",
    "opening with buys remaining",
    "opening with sells remaining",
    "opening with nothing remaining at its price",
    "opening of ten fills or more",
    "opening gone one buy",
    "opening gone several buys",
    "opening gone one sell",
    "opening gone several sells",
    "opening gone though part-filled",
    "opening gone with volume 0, buys",
    "opening gone with volume 0, sells",
];

pub fn names() -> Vec<String> {
    let sourced = ["print", "close"]
        .iter()
        .flat_map(|source| QUOTES.map(|quotes| format!("opening at the {source} with {quotes}")));
    let refused = QUOTES.map(|quotes| format!("open 20 with {quotes}"));
    let amounts = AMOUNTS.iter().flat_map(|amount| {
        [
            format!("opening valid by the amount {amount}"),
            format!("opening not valid by the amount {amount}"),
        ]
    });
    let any = BY_A_CENT.iter().chain(&BY_MORE);
    let beside = any
        .flat_map(|stretch| BESIDE.map(|beside| beside_name(beside, stretch)))
        .chain(
            BY_MORE
                .iter()
                .flat_map(|stretch| BESIDE_WIDER.map(|beside| beside_name(beside, stretch))),
        );
    let turns = (1..=3).flat_map(|grid| AT_THE_TURN.map(|(_, _, halves)| turn_name(grid, halves)));
    let kept_from = ["opening at the print", "opening at the close", "open 20"]
        .iter()
        .flat_map(|instead| KEPT_FROM.map(|how| format!("{instead} {how}")));
    PLAIN_NAMES
        .iter()
        .map(|name| name.to_string())
        .chain(beside)
        .chain(turns)
        .chain(kept_from)
        .chain(sourced)
        .chain(refused)
        .chain(amounts)
        .collect()
}

fn beside_name(beside: &str, stretch: &str) -> String {
    format!("opening at a midpoint {beside} a step of {stretch}")
}

fn turn_name(grid: u32, halves: &str) -> String {
    format!("opening at the midpoint in grid {grid}, half the sum {halves}")
}

fn quotes_name(away: Away) -> &'static str {
    match (away.bid, away.offer) {
        (Some(_), Some(_)) => QUOTES[0],
        (Some(_), None) => QUOTES[1],
        (None, Some(_)) => QUOTES[2],
        (None, None) => QUOTES[3],
    }
}

fn crossed(away: Away) -> bool {
    away.bid
        .zip(away.offer)
        .is_some_and(|(bid, offer)| bid > offer)
}

pub fn witness(counts: &mut Counts, before: Option<&Series>, outcome: &Result<Opening, Refusal>) {
    let (outcome, before) = match (outcome, before) {
        (Err(Refusal::AlreadyOpen), _) => return counts.add("open 9"),
        (outcome, Some(before)) => (outcome, before),
        _ => return counts.add("open 21"),
    };
    match outcome {
        Err(_) => refused(counts, before),
        Ok(_) if !before.book().crosses() => not_crossed(counts, before),
        Ok(opening) => {
            sources(counts, before);
            sides(counts, before, opening);
            gone(counts, before, opening);
        }
    }
}

/// How the grid keeps two quotes, not crossed, from opening at their midpoint:
/// it has no price low enough, or the highest of these is below the bid.
fn kept_from(away: Away, grid: Grid) -> Option<String> {
    let two = away.offer.is_some() && !crossed(away);
    let bid = away.bid.filter(|_| two)?;
    let number = grid_number(grid);
    match midpoint(away, grid) {
        None => Some(format!("without a midpoint in grid {number}")),
        Some(price) if price < bid => {
            Some(format!("past a midpoint below the bid in grid {number}"))
        }
        Some(_) => None,
    }
}

fn refused(counts: &mut Counts, before: &Series) {
    let away = before.away_quote();
    let settings = before.accepted_settings();
    let none = candidates(away, settings).is_empty();
    counts.add_if(none, "open 20 without any candidate");
    if let Some(how) = kept_from(away, settings.grid) {
        counts.add(format!("open 20 {how}"));
    }
    counts.add(format!("open 20 with {}", quotes_name(away)));
    counts.add_if(crossed(away), "open 20 under a crossed away quote");
    amounts(counts, before);
}

fn not_crossed(counts: &mut Counts, before: &Series) {
    let book = before.book();
    counts.add(match (book.best(Side::Buy), book.best(Side::Sell)) {
        (None, None) => "open 0 with an empty book",
        (Some(_), None) => "open 0 with buys alone",
        (None, Some(_)) => "open 0 with sells alone",
        _ => "open 0 not crossed",
    });
    counts.add_if(
        crossed(before.away_quote()),
        "open 0 not crossed under a crossed away quote",
    );
}

/// The candidates under two quotes, valid and not, by the minimum amount.
fn amounts(counts: &mut Counts, before: &Series) {
    let away = before.away_quote();
    let (Some(bid), Some(offer)) = (away.bid, away.offer) else {
        return;
    };
    let amount = minimum_amount(bid);
    for (_, price) in candidates(away, before.accepted_settings()) {
        if price < bid || price > offer {
            continue;
        }
        if !valid(away, price) {
            counts.add(format!("opening not valid by the amount {}", amount.0));
            continue;
        }
        let near_bid = price.less(bid) <= amount;
        let near_offer = offer.less(price) <= amount;
        counts.add_if(
            near_bid && !near_offer,
            "opening price within the amount of the bid alone",
        );
        counts.add_if(
            near_offer && !near_bid,
            "opening price within the amount of the offer alone",
        );
        counts.add(format!("opening valid by the amount {}", amount.0));
        return;
    }
}

fn sources(counts: &mut Counts, before: &Series) {
    let away = before.away_quote();
    let settings = before.accepted_settings();
    let Some((source, price)) = opening_price(away, settings) else {
        return;
    };
    amounts(counts, before);
    match source {
        Source::Midpoint => at_midpoint(counts, away, settings.grid, price),
        Source::LastPrint => at_print(counts, "print", away, settings.grid, price),
        Source::PreviousClose => {
            at_print(counts, "close", away, settings.grid, price);
            counts.add(if settings.last_print.is_some() {
                "opening at the close past a print not valid"
            } else {
                "opening at the close without a print"
            });
        }
    }
    counts.add_if(price == Cents(1), "opening price 1");
    counts.add_if(price == Cents(1_000_000), "opening price 1,000,000");
    counts.add(match settings.allocation {
        Allocation::Time => "opening in the time class",
        Allocation::Proportional => "opening in the proportional class",
    });
}

fn at_print(counts: &mut Counts, source: &str, away: Away, grid: Grid, price: Cents) {
    counts.add(format!(
        "opening at the {source} with {}",
        quotes_name(away)
    ));
    if let Some(how) = kept_from(away, grid) {
        counts.add(format!("opening at the {source} {how}"));
    }
    counts.add_if(
        !grid.holds(price),
        format!("opening at a {source} off the grid"),
    );
}

fn at_midpoint(counts: &mut Counts, away: Away, grid: Grid, price: Cents) {
    counts.add("opening at the midpoint");
    let (Some(bid), Some(offer)) = (away.bid, away.offer) else {
        return;
    };
    counts.add_if(
        bid == offer,
        "opening at the midpoint of a locked away quote",
    );
    let sum = bid.0 + offer.0;
    let beside = beside(sum - 2 * price.0, grid.step_at(price));
    counts.add(beside_name(beside, &stretch_name(grid, price)));
    let number = grid_number(grid);
    for (lowest, highest, halves) in AT_THE_TURN {
        let around = (lowest..=highest).contains(&sum);
        counts.add_if(around, turn_name(number, halves));
    }
    counts.add_if(
        number == 3 && price == grid.lowest_step(),
        "opening at the midpoint 5 in grid 3",
    );
    counts.add_if(
        !valid(away, Cents(sum / 2)),
        format!("opening at a midpoint valid once rounded in grid {number}"),
    );
}

/// Where half the sum of two quotes lies beside a step, told by the half cents
/// that it lies above the opening price.
fn beside(half_cents: u64, step: u64) -> &'static str {
    match half_cents {
        0 => "on",
        1 => "half a cent above",
        2 => "a cent above",
        most if most + 1 == 2 * step => "half a cent below",
        _ => "more than a cent above",
    }
}

fn sides(counts: &mut Counts, before: &Series, opening: &Opening) {
    let buys = eligible(before.book(), Side::Buy, opening.price);
    let sells = eligible(before.book(), Side::Sell, opening.price);
    counts.add(match buys.cmp(&sells) {
        std::cmp::Ordering::Greater => "opening with buys remaining",
        std::cmp::Ordering::Less => "opening with sells remaining",
        std::cmp::Ordering::Equal => "opening with nothing remaining at its price",
    });
    counts.add_if(opening.volume == Contracts(0), "opening with volume 0");
    counts.add_if(opening.fills.len() >= 10, "opening of ten fills or more");
}

fn gone(counts: &mut Counts, before: &Series, opening: &Opening) {
    let [first, rest @ ..] = opening.gone.as_slice() else {
        return;
    };
    let side = before.book().spot(*first).map(|spot| spot.side);
    let (one, several, without_volume) = match side {
        Some(Side::Buy) => (
            "opening gone one buy",
            "opening gone several buys",
            "opening gone with volume 0, buys",
        ),
        _ => (
            "opening gone one sell",
            "opening gone several sells",
            "opening gone with volume 0, sells",
        ),
    };
    counts.add(if rest.is_empty() { one } else { several });
    counts.add_if(opening.volume == Contracts(0), without_volume);
    let part_filled = opening
        .fills
        .iter()
        .any(|fill| opening.gone.contains(&fill.number));
    counts.add_if(part_filled, "opening gone though part-filled");
}
