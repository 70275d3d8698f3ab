//! Outcomes of settings, away and submit.

use second::refusal::{answer, Refusal};
use second::session::Session;
use second::words::SETTINGS_NAMES;

use super::Counts;

/// The lowest and highest value of each setting; least has its own rule.
const ENDS: [(u32, u32); 11] = [
    (1, 2),
    (1, 3),
    (1, 2),
    (1, 1_000_000),
    (0, 1_000_000),
    (0, 1_000_000),
    (0, 1_000),
    (0, 1_000_000),
    (0, 1_000_000),
    (0, 1_000_000),
    (0, 1_000_000),
];

const LEAST: usize = 7;
const GREATEST: usize = 8;

const MALFORMED: [&str; 17] = [
    "kind 0",
    "kind above 3",
    "side 0",
    "side above 2",
    "life 0",
    "life above 2",
    "limit with price 0",
    "limit with price above 1,000,000",
    "market with a price",
    "size 0",
    "size above 999,999",
    "new order with a number",
    "cancel with a side",
    "cancel with a life",
    "cancel with a price",
    "cancel with a size",
    "cancel with number 0",
];

const PLAIN_NAMES: [&str; 46] = [
    "set 0 first",
    "set 0 over a series",
    "set 0 grid 2",
    "set 7 with least above greatest",
    "set 7 with several values outside",
    "set 7 before any accepted",
    "set 7 over a series",
    "away 0 with neither quote",
    "away 0 with a bid alone",
    "away 0 with an offer alone",
    "away 0 with both quotes",
    "away 0 locked",
    "away 0 crossed",
    "away 0 with bid 1",
    "away 0 with bid 1,000,000",
    "away 0 with offer 1",
    "away 0 with offer 1,000,000",
    "away 8 for the bid",
    "away 8 for the offer",
    "away 8 for both",
    "away 8 at 1,000,001",
    "away 21",
    "submit 0 with one entry",
    "submit 0 with a bulk",
    "submit 0 with 20 entries",
    "submit 0 to a lane of 64",
    "submit 0 with price 1",
    "submit 0 with price 1,000,000",
    "submit 0 with size 1",
    "submit 0 with size 999,999",
    "submit 0 with tenant 8",
    "submit 1 with tenant 9",
    "submit 1 with a tenant far outside",
    "submit 1 though an entry is malformed",
    "submit 2 first in a bulk",
    "submit 2 between in a bulk",
    "submit 2 last in a bulk",
    "submit 2 though the lane is full",
    "submit 2 price just outside",
    "submit 2 size just outside",
    "submit 4 with one entry and 64 waiting",
    "submit 4 with a bulk over a lane's end",
    "submit 21",
    "submit 21 though the tenant is outside",
    "submit 21 though an entry is malformed",
    "set 7 with a value just outside",
];

pub fn names() -> Vec<String> {
    let outside = (0..11)
        .filter(|place| ENDS[*place].0 > 0)
        .map(|place| format!("set 7 {} below", SETTINGS_NAMES[place]))
        .chain(
            (0..11)
                .filter(|place| *place != LEAST)
                .map(|place| format!("set 7 {} above", SETTINGS_NAMES[place])),
        );
    let ends = SETTINGS_NAMES.iter().flat_map(|name| {
        [
            format!("set 0 {name} lowest"),
            format!("set 0 {name} highest"),
        ]
    });
    let malformed = MALFORMED.iter().map(|name| format!("submit 2 {name}"));
    let plain = PLAIN_NAMES.iter().map(|name| name.to_string());
    plain.chain(outside).chain(ends).chain(malformed).collect()
}

pub fn settings(
    counts: &mut Counts,
    before: &Session,
    values: &[u32; 11],
    outcome: Result<(), Refusal>,
) {
    let over = before.series().is_some();
    if outcome.is_ok() {
        counts.add(if over {
            "set 0 over a series"
        } else {
            "set 0 first"
        });
        counts.add_if(values[1] == 2, "set 0 grid 2");
        settings_at_ends(counts, values);
        return;
    }
    counts.add(if over {
        "set 7 over a series"
    } else {
        "set 7 before any accepted"
    });
    settings_outside(counts, values);
}

fn settings_at_ends(counts: &mut Counts, values: &[u32; 11]) {
    for (place, name) in SETTINGS_NAMES.iter().enumerate() {
        let (lowest, highest) = ENDS[place];
        counts.add_if(values[place] == lowest, format!("set 0 {name} lowest"));
        counts.add_if(values[place] == highest, format!("set 0 {name} highest"));
    }
}

fn settings_outside(counts: &mut Counts, values: &[u32; 11]) {
    let mut reasons = Vec::new();
    for (place, name) in SETTINGS_NAMES.iter().enumerate() {
        let (lowest, highest) = ENDS[place];
        if values[place] < lowest {
            reasons.push(format!("set 7 {name} below"));
        }
        if values[place] > highest && place != LEAST {
            reasons.push(format!("set 7 {name} above"));
            counts.add_if(
                values[place] == highest + 1,
                "set 7 with a value just outside",
            );
        }
    }
    if values[LEAST] > values[GREATEST] {
        reasons.push("set 7 with least above greatest".to_string());
    }
    match reasons.as_slice() {
        [only] => counts.add(only.as_str()),
        _ => counts.add("set 7 with several values outside"),
    }
}

pub fn away(counts: &mut Counts, bid: u32, offer: u32, outcome: Result<(), Refusal>) {
    match answer(outcome) {
        21 => counts.add("away 21"),
        8 => away_refused(counts, bid, offer),
        _ => away_accepted(counts, bid, offer),
    }
}

fn away_refused(counts: &mut Counts, bid: u32, offer: u32) {
    counts.add(match (bid > 1_000_000, offer > 1_000_000) {
        (true, true) => "away 8 for both",
        (true, false) => "away 8 for the bid",
        _ => "away 8 for the offer",
    });
    let just = bid == 1_000_001 || offer == 1_000_001;
    counts.add_if(just, "away 8 at 1,000,001");
}

fn away_accepted(counts: &mut Counts, bid: u32, offer: u32) {
    counts.add(match (bid, offer) {
        (0, 0) => "away 0 with neither quote",
        (_, 0) => "away 0 with a bid alone",
        (0, _) => "away 0 with an offer alone",
        _ if bid == offer => "away 0 locked",
        _ if bid > offer => "away 0 crossed",
        _ => "away 0 with both quotes",
    });
    counts.add_if(bid == 1, "away 0 with bid 1");
    counts.add_if(bid == 1_000_000, "away 0 with bid 1,000,000");
    counts.add_if(offer == 1, "away 0 with offer 1");
    counts.add_if(offer == 1_000_000, "away 0 with offer 1,000,000");
}

pub fn submit(
    counts: &mut Counts,
    before: &Session,
    tenant: u32,
    entries: &[[u32; 6]],
    outcome: Result<(), Refusal>,
) {
    let waiting = before.series().map_or(0, |series| {
        series.waiting(usize::try_from(tenant).unwrap_or(usize::MAX))
    });
    let malformed: Vec<usize> = (0..entries.len())
        .filter(|place| !deviations(&entries[*place]).is_empty())
        .collect();
    match answer(outcome) {
        21 => {
            counts.add("submit 21");
            counts.add_if(tenant > 8, "submit 21 though the tenant is outside");
            counts.add_if(
                !malformed.is_empty(),
                "submit 21 though an entry is malformed",
            );
        }
        1 => {
            counts.add(if tenant == 9 {
                "submit 1 with tenant 9"
            } else {
                "submit 1 with a tenant far outside"
            });
            counts.add_if(
                !malformed.is_empty(),
                "submit 1 though an entry is malformed",
            );
        }
        2 => submit_malformed(counts, entries, &malformed, waiting),
        4 => counts.add(if entries.len() == 1 {
            "submit 4 with one entry and 64 waiting"
        } else {
            "submit 4 with a bulk over a lane's end"
        }),
        _ => submit_accepted(counts, tenant, entries, waiting),
    }
}

fn submit_malformed(
    counts: &mut Counts,
    entries: &[[u32; 6]],
    malformed: &[usize],
    waiting: usize,
) {
    let full = waiting + entries.len() > 64;
    counts.add_if(full, "submit 2 though the lane is full");
    let [place] = *malformed else {
        return;
    };
    let entry = &entries[place];
    if let [only] = deviations(entry).as_slice() {
        counts.add(format!("submit 2 {only}"));
    }
    counts.add_if(entry[3] == 1_000_001, "submit 2 price just outside");
    counts.add_if(entry[4] == 1_000_000, "submit 2 size just outside");
    if entries.len() > 2 {
        counts.add(match place {
            0 => "submit 2 first in a bulk",
            last if last + 1 == entries.len() => "submit 2 last in a bulk",
            _ => "submit 2 between in a bulk",
        });
    }
}

fn submit_accepted(counts: &mut Counts, tenant: u32, entries: &[[u32; 6]], waiting: usize) {
    counts.add(if entries.len() == 1 {
        "submit 0 with one entry"
    } else {
        "submit 0 with a bulk"
    });
    counts.add_if(entries.len() == 20, "submit 0 with 20 entries");
    let full = waiting + entries.len() == 64;
    counts.add_if(full, "submit 0 to a lane of 64");
    counts.add_if(tenant == 8, "submit 0 with tenant 8");
    for entry in entries {
        counts.add_if(entry[3] == 1, "submit 0 with price 1");
        counts.add_if(entry[3] == 1_000_000, "submit 0 with price 1,000,000");
        counts.add_if(entry[4] == 1, "submit 0 with size 1");
        counts.add_if(entry[4] == 999_999, "submit 0 with size 999,999");
    }
}

/// In which ways an entry is malformed.
fn deviations(entry: &[u32; 6]) -> Vec<&'static str> {
    let [kind, side, life, price, size, number] = *entry;
    let tests: Vec<(bool, &str)> = match kind {
        0 => vec![(true, "kind 0")],
        3 => vec![
            (side != 0, "cancel with a side"),
            (life != 0, "cancel with a life"),
            (price != 0, "cancel with a price"),
            (size != 0, "cancel with a size"),
            (number == 0, "cancel with number 0"),
        ],
        1 | 2 => vec![
            (side == 0, "side 0"),
            (side > 2, "side above 2"),
            (life == 0, "life 0"),
            (life > 2, "life above 2"),
            (kind == 1 && price == 0, "limit with price 0"),
            (
                kind == 1 && price > 1_000_000,
                "limit with price above 1,000,000",
            ),
            (kind == 2 && price != 0, "market with a price"),
            (size == 0, "size 0"),
            (size > 999_999, "size above 999,999"),
            (number != 0, "new order with a number"),
        ],
        _ => vec![(true, "kind above 3")],
    };
    tests
        .into_iter()
        .filter_map(|(met, name)| met.then_some(name))
        .collect()
}
