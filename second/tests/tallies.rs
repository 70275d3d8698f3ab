//! The tallies printed after the lines of a tape, and what they add up.

use std::fs;
use std::path::Path;

use second::entry::{Entry, Side};
use second::opening::Opening;
use second::session::{Series, Session, Tally, Turn};
use second::tape::{call, print_tallies, run, Answer, Reader};
use second::units::{Contracts, TENANTS};
use second::words::make;

/// Settings of time class on grid 1, with a last print of 105.
const SETTINGS: &str = "settings allocation time grid 1 type call strike 10000 drill 10 far 20 \
                        percent 10 least 25 greatest 500 print 105 close 0\n";

/// Settings that are refused for their grid.
const NO_SETTINGS: &str = "settings allocation time grid 4 type call strike 10000 drill 10 far 20 \
                           percent 10 least 25 greatest 500 print 105 close 0\n";

/// The lines of a tape and its tallies, as they are printed one after another.
fn printed(words: &str) -> (String, String) {
    let tape = make(words).expect("words");
    let mut session = Session::default();
    let (mut lines, mut tallies) = (Vec::new(), Vec::new());
    run(&mut session, &tape, &mut lines).expect("memory");
    print_tallies(&session, &mut tallies).expect("memory");
    let text = |bytes| String::from_utf8(bytes).expect("lines");
    (text(lines), text(tallies))
}

/// The nine lines in which only the tenants given have done anything.
fn only(given: &[(usize, [u64; 3])]) -> String {
    (0..9)
        .map(|tenant| {
            let found = given.iter().find(|(whose, _)| *whose == tenant);
            let [turns, bought, sold] = found.map_or([0; 3], |(_, tally)| *tally);
            format!("tally {tenant} {turns} {bought} {sold}\n")
        })
        .collect()
}

#[test]
fn worked_example() {
    let settings = SETTINGS.replace("print 105", "print 0");
    let words = format!(
        "{settings}open\nsubmit tenant 2: buy day 5 at 100\nsubmit tenant 7: sell now 3 at 100\n\
         turn times 3\n"
    );
    let (lines, tallies) = printed(&words);
    assert!(lines.ends_with("turn 7 0 2 3 0\nfill 1 2 3 100\nrefused 5\nend\n"));
    assert_eq!(tallies, only(&[(2, [1, 3, 0]), (7, [1, 0, 3])]));
}

/// E11 with a tenant for each order: #1 of 3, #2 of 4, #3 of 5, #4 of 6.
const E11: &str = "submit tenant 3: buy day 5 at 110\nsubmit tenant 4: buy day 5 at 105\n\
                   submit tenant 5: sell day 4 at 104\nsubmit tenant 6: sell day 3 at 108\n\
                   turn times 4\nopen\n";

/// What E11 gives each of the four.
const E11_GIVES: [(usize, [u64; 3]); 4] = [
    (3, [1, 4, 0]),
    (4, [1, 0, 0]),
    (5, [1, 0, 4]),
    (6, [1, 0, 0]),
];

#[test]
fn e11_counts_both_sides_of_the_opening_and_no_cancelled_contract() {
    let (lines, tallies) = printed(&format!("{SETTINGS}{E11}"));
    assert!(lines.ends_with("open 0 105 4\nfill 1 3 4 105\nfill 3 5 4 105\ngone 1\nend\n"));
    assert_eq!(tallies, only(&E11_GIVES));
}

#[test]
fn trading_after_the_opening_is_added_to_what_the_opening_gave() {
    let words = format!("{SETTINGS}{E11}submit tenant 5: buy now 3 at 108\nturn\n");
    let (lines, tallies) = printed(&words);
    assert!(lines.ends_with("turn 5 0 5 3 0\nfill 4 6 3 108\nend\n"));
    let mut expected = E11_GIVES;
    expected[2] = (5, [2, 3, 4]);
    expected[3] = (6, [1, 0, 3]);
    assert_eq!(tallies, only(&expected));
}

#[test]
fn a_tenant_that_trades_with_itself_buys_and_sells() {
    let words = format!(
        "{SETTINGS}submit tenant 8: buy day 6 at 105, sell day 2 at 105\nturn times 2\nopen\n\
         submit tenant 8: sell now 3 at 105\nturn\n"
    );
    assert_eq!(printed(&words).1, only(&[(8, [3, 5, 5])]));
}

#[test]
fn entries_turned_down_and_cancels_are_turns_and_refused_turns_are_none() {
    let words = format!(
        "{SETTINGS}turn\nsubmit tenant 1: buy now 1 at market, buy day 2 at 100, cancel 1, cancel 1\n\
         turn times 6\n"
    );
    let (lines, tallies) = printed(&words);
    let turns = "turn 1 10 0 0 0\nturn 1 0 1 0 1\nturn 1 0 1 0 5\nturn 1 18 0 0 0\nrefused 5\n";
    assert!(lines.contains(turns));
    assert_eq!(tallies, only(&[(1, [4, 0, 0])]));
}

#[test]
fn accepted_settings_empty_the_tallies_and_refused_ones_leave_them() {
    let (lines, tallies) = printed(&format!("{SETTINGS}{E11}{NO_SETTINGS}"));
    assert!(lines.ends_with("gone 1\nset 7\nend\n"));
    assert_eq!(tallies, only(&E11_GIVES));
    let (lines, tallies) = printed(&format!("{SETTINGS}{E11}{SETTINGS}"));
    assert!(lines.ends_with("gone 1\nset 0\nend\n"));
    assert_eq!(tallies, only(&[]));
    let again = "submit tenant 0: buy day 1 at 100\nturn\n";
    let (_, tallies) = printed(&format!("{SETTINGS}{E11}{SETTINGS}{again}"));
    assert_eq!(tallies, only(&[(0, [1, 0, 0])]));
}

#[test]
fn a_refused_tape_keeps_the_tallies_from_before_its_unfinished_event() {
    // An event that there is not, settings cut short, a count of 0.
    for (raw, told) in [("00 04", 33), ("01 01 01", 30), ("03 00 00", 34)] {
        let (lines, tallies) = printed(&format!("{SETTINGS}{E11}raw {raw}\n"));
        let last = lines.lines().last().expect("a line");
        assert!(last.starts_with(&format!("tape {told} ")), "{last}");
        assert_eq!(tallies, only(&E11_GIVES));
    }
}

#[test]
fn no_settings_at_all_are_nine_lines_of_zeros() {
    let zeros = only(&[]);
    assert_eq!(printed(""), ("end\n".to_string(), zeros.clone()));
    let (lines, tallies) = printed(&format!("turn\n{NO_SETTINGS}open\n"));
    assert_eq!(lines, "refused 21\nset 7\nopen 21 0 0\nend\n");
    assert_eq!(tallies, zeros);
}

#[test]
fn contracts_are_counted_past_four_thousand_million() {
    let trade = "submit tenant 0: buy day 999999 at 100\nsubmit tenant 1: sell now 999999 at 100\n\
                 turn times 2\n";
    let words = format!("{SETTINGS}open\n{}", trade.repeat(4_300));
    let contracts = 4_300 * 999_999;
    assert!(contracts > u64::from(u32::MAX));
    let expected = [(0, [4_300, contracts, 0]), (1, [4_300, 0, contracts])];
    assert_eq!(printed(&words).1, only(&expected));
}

/// The tallies of a tape, added up anew from what each of its calls answered.
fn added_up(tape: &[u8]) -> [Tally; TENANTS] {
    let mut session = Session::default();
    let mut tallies = [Tally::default(); TENANTS];
    let mut reader = Reader::new(tape);
    while let Ok(Some(event)) = reader.event() {
        let before = session.series().cloned();
        match (call(&mut session, &event), before) {
            (Answer::Settings(Ok(())), _) => tallies = Default::default(),
            (Answer::Turn(Ok(turn)), Some(before)) => add_turn(&mut tallies, &before, &turn),
            (Answer::Open(Ok(opening)), Some(before)) => {
                add_opening(&mut tallies, &before, &opening);
            }
            _ => {}
        }
    }
    tallies
}

fn add(tally: &mut Tally, side: Side, quantity: Contracts) {
    match side {
        Side::Buy => tally.bought += u128::from(quantity.0),
        Side::Sell => tally.sold += u128::from(quantity.0),
    }
}

/// The side on which an order rests.
fn side_of(series: &Series, number: u32) -> Side {
    series.book().spot(number).expect("a resting order").side
}

fn add_turn(tallies: &mut [Tally; TENANTS], before: &Series, turn: &Turn) {
    tallies[turn.tenant].turns += 1;
    let (tenant, entry) = before.next_entry().expect("an entry waiting");
    assert_eq!(tenant, turn.tenant);
    if let (Entry::New(order), Ok(accepted)) = (entry, &turn.outcome) {
        add(&mut tallies[tenant], order.side, accepted.filled);
        for fill in &accepted.fills {
            let side = side_of(before, fill.number);
            assert_ne!(side, order.side);
            add(&mut tallies[fill.tenant], side, fill.quantity);
        }
    }
}

fn add_opening(tallies: &mut [Tally; TENANTS], before: &Series, opening: &Opening) {
    for fill in &opening.fills {
        let side = side_of(before, fill.number);
        add(&mut tallies[fill.tenant], side, fill.quantity);
    }
}

#[test]
fn tallies_of_every_stored_tape_are_the_sums_over_its_history() {
    let folder = Path::new(env!("CARGO_MANIFEST_DIR")).join("../tests/tapes");
    let mut contracts = 0;
    for file in fs::read_dir(folder).expect("a folder of stored tapes") {
        let file = file.expect("a file of the folder").path();
        if file.extension().is_none_or(|kind| kind != "tape") {
            continue;
        }
        let tape = fs::read(&file).expect("a stored tape");
        let mut session = Session::default();
        run(&mut session, &tape, &mut Vec::new()).expect("memory");
        let tallies = session.tallies();
        assert_eq!(tallies, added_up(&tape), "{}", file.display());
        contracts += tallies.iter().map(|tally| tally.bought).sum::<u128>();
    }
    assert!(contracts > 0, "no stored tape trades");
}
