//! The worked example, the marked examples and that of ticket 2, run on whole
//! sessions, and the refusals that no tape reaches.

use crate::refusal::Refusal;
use crate::session::{Session, Tally, MOST_TURNS, RECORDS};
use crate::tape;
use crate::words::make;

const PLAIN: [u32; 11] = [1, 1, 1, 10_000, 10, 20, 10, 25, 500, 0, 0];

/// A limit buy of one contract at 100 cents for the day.
const BUY: [u32; 6] = [1, 1, 1, 100, 1, 0];

/// A limit sell of one contract at 100 cents for the day.
const SELL: [u32; 6] = [1, 2, 1, 100, 1, 0];

fn settings_words(numbers: [u32; 11]) -> String {
    let [a, g, t, k, d, f, x, l, w, p, c] = numbers;
    format!(
        "settings allocation {a} grid {g} type {t} strike {k} drill {d} far {f} \
         percent {x} least {l} greatest {w} print {p} close {c}\n"
    )
}

fn printed(words: &str) -> String {
    let tape = make(words).expect("words");
    let mut out = Vec::new();
    tape::run(&mut Session::default(), &tape, &mut out).expect("memory");
    String::from_utf8(out).expect("lines")
}

/// The lines printed after settings with some values replaced.
fn after(replaced: &[(usize, u32)], words: &str) -> Vec<String> {
    let mut numbers = PLAIN;
    for (place, value) in replaced {
        numbers[*place] = *value;
    }
    let lines = printed(&(settings_words(numbers) + words));
    lines.lines().map(str::to_string).collect()
}

/// Only the lines of turns, openings, fills and cancelled orders.
fn trading(lines: &[String]) -> Vec<&str> {
    let kinds = ["turn ", "open ", "fill ", "gone "];
    lines
        .iter()
        .map(String::as_str)
        .filter(|line| kinds.iter().any(|kind| line.starts_with(kind)))
        .collect()
}

fn accepted() -> Session {
    let mut session = Session::default();
    assert_eq!(session.settings(&PLAIN), Ok(()));
    session
}

#[test]
fn worked_example() {
    let words = settings_words(PLAIN)
        + "open\nsubmit tenant 2: buy day 5 at 100\nsubmit tenant 7: sell now 3 at 100\nturn times 3\n";
    let whole = "set 0\nopen 0 0 0\nsubmit 0\nsubmit 0\nturn 2 0 1 0 1\nturn 7 0 2 3 0\n\
                 fill 1 2 3 100\nrefused 5\nend\n";
    assert_eq!(printed(&words), whole);
}

#[test]
fn e1_to_e3_in_a_book() {
    let cases: [(&[u32], u32, &[&str]); 3] = [
        (
            &[5, 5, 5, 5],
            10,
            &[
                "fill 1 0 3 100",
                "fill 2 0 3 100",
                "fill 3 0 2 100",
                "fill 4 0 2 100",
            ],
        ),
        (
            &[10, 30, 20],
            7,
            &["fill 1 0 1 100", "fill 2 0 4 100", "fill 3 0 2 100"],
        ),
        (&[1, 1, 1], 1, &["fill 1 0 1 100"]),
    ];
    for (sizes, quantity, fills) in cases {
        let entries: Vec<String> = sizes
            .iter()
            .map(|size| format!("sell day {size} at 100"))
            .collect();
        let words = format!(
            "open\nsubmit tenant 0: {}\nturn times {}\nsubmit tenant 1: buy now {quantity} at 100\nturn\n",
            entries.join(", "),
            sizes.len()
        );
        let lines = after(&[(0, 2)], &words);
        let filled: Vec<&String> = lines
            .iter()
            .filter(|line| line.starts_with("fill"))
            .collect();
        assert_eq!(filled, fills);
    }
}

#[test]
fn e4() {
    let words =
        "submit tenant 0: buy day 1 at 299, buy day 1 at 305, buy day 1 at 301\nturn times 3\n";
    let lines = after(&[(1, 2)], words);
    assert_eq!(
        trading(&lines),
        ["turn 0 0 1 0 1", "turn 0 0 2 0 1", "turn 0 11 0 0 0"]
    );
}

#[test]
fn e5() {
    let words = "open\naway bid 90 offer 110\nsubmit tenant 0: buy now 1 at market, buy now 1 at market\nturn\naway bid 85 offer 115\nturn\n";
    let lines = after(&[], words);
    assert_eq!(
        trading(&lines),
        ["open 0 0 0", "turn 0 0 1 0 2", "turn 0 15 0 0 0"]
    );
}

#[test]
fn e6() {
    let book = "submit tenant 0: buy day 1 at 200, sell day 1 at 50\nturn times 2\n";
    let opened = |replaced: &[(usize, u32)], offer: u32| {
        let words = format!("{book}away bid 100 offer {offer}\nopen\n");
        trading(&after(replaced, &words))[2].to_string()
    };
    assert_eq!(opened(&[], 151), "open 0 125 1");
    assert_eq!(opened(&[], 153), "open 20 0 0");
    assert_eq!(opened(&[(9, 120), (10, 128)], 153), "open 0 120 1");
    assert_eq!(opened(&[(10, 128)], 153), "open 0 128 1");
}

#[test]
fn e7() {
    let words = "open\nsubmit tenant 0: sell day 4 at 103, sell day 6 at 105\nturn times 2\naway bid 0 offer 104\nsubmit tenant 1: buy day 20 at 106\nturn\n";
    let lines = after(&[(5, 10)], words);
    assert_eq!(trading(&lines)[3..], ["turn 1 0 3 4 4", "fill 1 0 4 103"]);
}

#[test]
fn e8() {
    let words = "open\nsubmit tenant 0: sell day 1 at 100, sell day 1 at 104\nturn times 2\nsubmit tenant 1: buy day 9 at 112\nturn\n";
    let lines = after(&[(4, 5)], words);
    assert_eq!(
        trading(&lines)[3..],
        ["turn 1 0 3 2 3", "fill 1 0 1 100", "fill 2 0 1 104"]
    );
}

#[test]
fn e9() {
    let words = "submit tenant 0: buy day 1 at 500, buy day 1 at 495\nturn times 2\n";
    let lines = after(&[(1, 2), (2, 2), (3, 500)], words);
    assert_eq!(trading(&lines), ["turn 0 12 0 0 0", "turn 0 0 1 0 1"]);
}

#[test]
fn e10() {
    let bulk = vec!["buy day 1 at 10"; 20].join(", ");
    let words = format!(
        "submit tenant 0: {bulk}\nsubmit tenant 3: cancel 9\nsubmit tenant 5: cancel 9\nturn times 5\n"
    );
    let lines = after(&[], &words);
    let tenants: Vec<&str> = trading(&lines).iter().map(|line| &line[5..6]).collect();
    assert_eq!(tenants, ["0", "3", "5", "0", "0"]);
}

#[test]
fn e11() {
    let words = "submit tenant 0: buy day 5 at 110, buy day 5 at 105, sell day 4 at 104, sell day 3 at 108\nturn times 4\nopen\n";
    let lines = after(&[(9, 105)], words);
    assert_eq!(
        trading(&lines)[4..],
        ["open 0 105 4", "fill 1 0 4 105", "fill 3 0 4 105", "gone 1"]
    );
}

#[test]
fn ticket_2() {
    let book = "submit tenant 0: buy day 1 at 310, sell day 1 at 295\nturn times 2\n";
    let opened = |grid: u32| {
        let words = format!("{book}away bid 298 offer 306\nopen\n");
        trading(&after(&[(1, grid)], &words))[2].to_string()
    };
    assert_eq!(opened(1), "open 0 302 1");
    assert_eq!(opened(2), "open 0 300 1");
    assert_eq!(opened(3), "open 0 300 1");
}

#[test]
fn the_last_number_is_given_and_the_next_is_19() {
    let mut session = accepted();
    session.series_mut().set_last_number(u32::MAX - 1);
    let three: Vec<u32> = [BUY, BUY, [3, 0, 0, 0, 0, u32::MAX]].concat();
    assert_eq!(session.submit(0, 3, &three), Ok(()));
    let last = session.turn(RECORDS).unwrap().outcome.unwrap();
    assert_eq!(last.number, u32::MAX);
    let before = session.series().unwrap().book().clone();
    let turned_down = session.turn(RECORDS).unwrap().outcome.unwrap_err();
    assert_eq!(turned_down.number(), 19);
    assert_eq!(*session.series().unwrap().book(), before);
    let cancelled = session.turn(RECORDS).unwrap().outcome.unwrap();
    assert_eq!(
        (cancelled.number, cancelled.disposition.number()),
        (u32::MAX, 5)
    );
}

#[test]
fn turns_are_refused_by_35_when_used_up() {
    let most = u64::try_from(MOST_TURNS).unwrap();
    let mut session = accepted();
    session.series_mut().set_turns(2, most / 2);
    session.series_mut().set_turns(8, most - most / 2 - 1);
    assert_eq!(session.turn(0), Err(Refusal::NoEntryWaiting));
    assert_eq!(session.submit(0, 2, &[BUY, BUY].concat()), Ok(()));
    assert!(session.turn(RECORDS).is_ok());
    let before = session.clone();
    assert_eq!(session.turn(RECORDS - 1), Err(Refusal::FewRecords));
    assert_eq!(session.turn(RECORDS), Err(Refusal::TurnsUsedUp));
    assert_eq!(session, before);
}

#[test]
fn the_most_turns_are_printed_whole() {
    let mut session = accepted();
    session
        .series_mut()
        .set_turns(8, u64::try_from(MOST_TURNS).unwrap());
    let mut out = Vec::new();
    tape::print_tallies(&session, &mut out).expect("memory");
    assert!(out.ends_with(b"tally 7 0 0 0\ntally 8 1000000000000000000 0 0\n"));
}

#[test]
fn a_count_or_row_of_numbers_that_does_not_fit_is_3() {
    let mut session = accepted();
    let before = session.clone();
    let many = BUY.repeat(21);
    assert_eq!(session.submit(0, 0, &many), Err(Refusal::Count));
    assert_eq!(session.submit(0, 21, &many), Err(Refusal::Count));
    assert_eq!(session.submit(0, u32::MAX, &many), Err(Refusal::Count));
    assert_eq!(session.submit(0, 1, &BUY[..5]), Err(Refusal::Count));
    assert_eq!(session.submit(0, 20, &many[..119]), Err(Refusal::Count));
    assert_eq!(session.submit(9, 0, &[]), Err(Refusal::Tenant));
    assert_eq!(session.submit(0, 2, &[0; 6]), Err(Refusal::Count));
    assert_eq!(session, before);
    assert_eq!(session.submit(0, 20, &many[..120]), Ok(()));
}

#[test]
fn fewer_than_216_records_are_6() {
    let mut session = Session::default();
    assert_eq!(session.turn(0), Err(Refusal::NoSettings));
    assert_eq!(session.open(0), Err(Refusal::NoSettings));
    let mut session = accepted();
    assert_eq!(session.turn(0), Err(Refusal::NoEntryWaiting));
    assert_eq!(session.submit(0, 1, &BUY), Ok(()));
    let before = session.clone();
    assert_eq!(session.turn(215), Err(Refusal::FewRecords));
    assert_eq!(session.open(215), Err(Refusal::FewRecords));
    assert_eq!(session, before);
    assert!(session.turn(216).is_ok());
    assert!(session.open(216).is_ok());
    assert_eq!(session.open(215), Err(Refusal::AlreadyOpen));
}

#[test]
fn tallies_cover_turns_fills_and_the_opening() {
    let mut session = Session::default();
    let mut numbers = PLAIN;
    numbers[9] = 100;
    assert_eq!(session.settings(&numbers), Ok(()));
    for (tenant, entry) in [(1, BUY), (2, SELL), (3, BUY)] {
        assert_eq!(session.submit(tenant, 1, &entry), Ok(()));
        assert!(session.turn(RECORDS).is_ok());
    }
    assert!(session.open(RECORDS).is_ok());
    for entry in [SELL, [3, 0, 0, 0, 0, 77]] {
        assert_eq!(session.submit(4, 1, &entry), Ok(()));
        assert!(session.turn(RECORDS).is_ok());
    }
    let tally = |tenant| session.series().unwrap().tally(tenant).unwrap();
    let expected = |turns, bought, sold| Tally {
        turns,
        bought,
        sold,
    };
    assert_eq!(tally(0), expected(0, 0, 0));
    assert_eq!(tally(1), expected(1, 1, 0));
    assert_eq!(tally(2), expected(1, 0, 1));
    assert_eq!(tally(3), expected(1, 1, 0));
    assert_eq!(tally(4), expected(2, 0, 1));
}
