//! A desk's order sheet: one order a line, its six fields with one space
//! between, a newline behind each line.
//!
//! Each right line is a submit of one entry. The form of a line is judged here
//! and its values are not: submit refuses those. Nothing in a sheet is passed
//! over, no remark, no empty line and no second space.

use std::fmt::{self, Display, Formatter};
use std::io::{self, BufRead, Read};
use std::ops::RangeInclusive;

use crate::tape::Event;

/// Why a line is refused, which ends the sheet.
#[derive(Clone, Copy, Debug, PartialEq, Eq, PartialOrd, Ord)]
pub enum SheetRefusal {
    TooLong = 42,
    Word = 43,
    Number = 44,
    Unended = 45,
}

impl SheetRefusal {
    /// The paper's number for this refusal.
    pub fn number(self) -> u32 {
        self as u32
    }
}

/// A refused line: why, and which, counted from 1.
#[derive(Clone, Copy, Debug, PartialEq, Eq)]
pub struct RefusedLine {
    pub refusal: SheetRefusal,
    pub line: u64,
}

impl Display for RefusedLine {
    fn fmt(&self, told: &mut Formatter) -> fmt::Result {
        write!(told, "sheet {} {}", self.refusal.number(), self.line)
    }
}

/// The most bytes of a line, its newline apart.
pub const LONGEST_LINE: usize = 64;

/// How many fields a line has.
const FIELDS: usize = 6;

/// The numbers that the words are in an entry.
const LIMIT: u32 = 1;
const MARKET: u32 = 2;
const BUY: u32 = 1;
const SELL: u32 = 2;
const DAY: u32 = 1;
const NOW: u32 = 2;

/// Reads a sheet line by line and gives the submit of each, until a line is
/// refused or the sheet ends.
pub struct Submits<R> {
    sheet: R,
    lines: u64,
}

impl<R: BufRead> Submits<R> {
    pub fn new(sheet: R) -> Submits<R> {
        Submits { sheet, lines: 0 }
    }

    /// The next line's submit, or none where the sheet ends. No byte is asked
    /// for behind a newline, nor behind one byte more than a line may have.
    pub fn submit(&mut self) -> io::Result<Option<Result<Event, RefusedLine>>> {
        let mut line = Vec::new();
        let sheet = self.sheet.by_ref();
        let most = LONGEST_LINE as u64 + 1;
        if sheet.take(most).read_until(b'\n', &mut line)? == 0 {
            return Ok(None);
        }
        self.lines += 1;
        let refused = |refusal| RefusedLine {
            refusal,
            line: self.lines,
        };
        Ok(Some(judged(&line).map_err(refused)))
    }
}

/// What a line is, given with its newline as far as it was read. Its fields are
/// judged once the newline is there.
fn judged(line: &[u8]) -> Result<Event, SheetRefusal> {
    match line {
        [line @ .., b'\n'] => submit_of(line),
        _ if line.len() > LONGEST_LINE => Err(SheetRefusal::TooLong),
        _ => Err(SheetRefusal::Unended),
    }
}

/// The submit of a line without its newline, or the refusal of its leftmost
/// wrong field. The first five spaces end a field each, the line's end the
/// last; a missing field is as an empty one.
fn submit_of(line: &[u8]) -> Result<Event, SheetRefusal> {
    let mut fields = line.splitn(FIELDS, |byte| *byte == b' ');
    let mut field = || fields.next().unwrap_or_default();
    let tenant = digits(field(), 1..=1).ok_or(SheetRefusal::Number)?;
    let side = side(field()).ok_or(SheetRefusal::Word)?;
    let size = digits(field(), 1..=6).ok_or(SheetRefusal::Number)?;
    let kind = kind(field()).ok_or(SheetRefusal::Word)?;
    let price = price(kind, field()).ok_or(SheetRefusal::Number)?;
    let life = life(field()).ok_or(SheetRefusal::Word)?;
    let entries = vec![[kind, side, life, price, size, 0]];
    Ok(Event::Submit { tenant, entries })
}

fn side(field: &[u8]) -> Option<u32> {
    match field {
        b"BUY" => Some(BUY),
        b"SELL" => Some(SELL),
        _ => None,
    }
}

fn kind(field: &[u8]) -> Option<u32> {
    match field {
        b"LMT" => Some(LIMIT),
        b"MKT" => Some(MARKET),
        _ => None,
    }
}

fn life(field: &[u8]) -> Option<u32> {
    match field {
        b"DAY" => Some(DAY),
        b"NOW" => Some(NOW),
        _ => None,
    }
}

/// The cents of a limit's dollar price; 0 for a market order's dash.
fn price(kind: u32, field: &[u8]) -> Option<u32> {
    match (kind, field) {
        (LIMIT, [dollars @ .., b'.', tens, ones]) => {
            Some(100 * digits(dollars, 1..=5)? + digits(&[*tens, *ones], 2..=2)?)
        }
        (MARKET, b"-") => Some(0),
        _ => None,
    }
}

/// What the digits spell; none for another byte and for another length. Six
/// digits are the most that are asked for.
fn digits(field: &[u8], lengths: RangeInclusive<usize>) -> Option<u32> {
    if !lengths.contains(&field.len()) {
        return None;
    }
    field.iter().try_fold(0, |number, byte| {
        let digit = char::from(*byte).to_digit(10)?;
        Some(10 * number + digit)
    })
}

#[cfg(test)]
mod tests {
    use super::*;
    use crate::refusal::Refusal;
    use crate::session::Session;
    use crate::writer::rewritten;
    use std::io::{BufReader, ErrorKind};

    const LMT: &str = "3 BUY 500 LMT 12.50 DAY";
    const MKT: &str = "7 SELL 20 MKT - NOW";

    /// The refusal of each field, from the left.
    const BY_FIELD: [u32; FIELDS] = [44, 43, 44, 43, 44, 43];

    /// What a sheet gives: tenant and entry of each submit, and the number of
    /// the refusal with its line.
    type Given = (Vec<(u32, [u32; 6])>, Option<(u32, u64)>);

    fn given(sheet: impl BufRead) -> Given {
        let mut submits = Submits::new(sheet);
        let mut orders = Vec::new();
        loop {
            match submits.submit().expect("memory") {
                Some(Ok(submit)) => orders.push(order(&submit)),
                Some(Err(refused)) => {
                    return (orders, Some((refused.refusal.number(), refused.line)));
                }
                None => return (orders, None),
            }
        }
    }

    fn order(submit: &Event) -> (u32, [u32; 6]) {
        let Event::Submit { tenant, entries } = submit else {
            panic!("no submit: {submit:?}");
        };
        assert_eq!(entries.len(), 1);
        (*tenant, entries[0])
    }

    /// What one line gives, without its newline.
    fn line(line: impl AsRef<[u8]>) -> Result<(u32, [u32; 6]), u32> {
        match submit_of(line.as_ref()) {
            Ok(submit) => Ok(order(&submit)),
            Err(refusal) => Err(refusal.number()),
        }
    }

    /// The line with another word in one field.
    fn with(right: &str, place: usize, field: &str) -> String {
        let mut fields: Vec<&str> = right.split(' ').collect();
        fields[place] = field;
        fields.join(" ")
    }

    #[test]
    fn each_word_is_its_number() {
        let lines = [
            ("3 BUY 5 LMT 1.05 DAY", [1, 1, DAY, 105, 5, 0]),
            ("3 BUY 5 LMT 1.05 NOW", [1, 1, 2, 105, 5, 0]),
            ("3 BUY 5 MKT - DAY", [2, 1, DAY, 0, 5, 0]),
            ("3 BUY 5 MKT - NOW", [2, 1, 2, 0, 5, 0]),
            ("3 SELL 5 LMT 1.05 DAY", [1, 2, DAY, 105, 5, 0]),
            ("3 SELL 5 LMT 1.05 NOW", [1, 2, 2, 105, 5, 0]),
            ("3 SELL 5 MKT - DAY", [2, 2, DAY, 0, 5, 0]),
            ("3 SELL 5 MKT - NOW", [2, 2, 2, 0, 5, 0]),
        ];
        for (text, entry) in lines {
            assert_eq!(line(text), Ok((3, entry)), "{text}");
        }
    }

    #[test]
    fn a_tenant_is_one_digit() {
        for tenant in 0..=9 {
            let text = with(LMT, 0, &tenant.to_string());
            assert_eq!(line(text), Ok((tenant, [1, 1, DAY, 1250, 500, 0])));
        }
    }

    #[test]
    fn a_size_is_one_to_six_digits_with_or_without_zeros_before() {
        for size in [0, 1, 9, 10, 99, 100, 9_999, 99_999, 100_000, 999_999] {
            for length in 1..=7 {
                let digits = format!("{size:0length$}");
                let expected = match digits.len() {
                    ..=6 => Ok((7, [2, 2, 2, 0, size, 0])),
                    _ => Err(44),
                };
                assert_eq!(line(with(MKT, 2, &digits)), expected, "{digits}");
            }
        }
    }

    #[test]
    fn a_price_is_one_to_five_digits_a_point_and_two_more() {
        let named = [
            ("1.05", 105),
            ("0.00", 0),
            ("0.01", 1),
            ("0.10", 10),
            ("00000.00", 0),
            ("00012.34", 1_234),
            ("9999.99", 999_999),
            ("10000.00", 1_000_000),
            ("10000.01", 1_000_001),
            ("99999.99", 9_999_999),
        ];
        for (price, cents) in named {
            let entry = [1, 1, DAY, cents, 500, 0];
            assert_eq!(line(with(LMT, 4, price)), Ok((3, entry)), "{price}");
        }
        for dollars in [0, 1, 9, 10, 99, 100, 999, 1_000, 9_999, 10_000, 99_999] {
            for cents in [0, 1, 9, 10, 50, 99] {
                for length in 1..=6 {
                    let price = format!("{dollars:0length$}.{cents:02}");
                    let expected = match price.len() {
                        ..=8 => Ok((3, [1, 1, DAY, 100 * dollars + cents, 500, 0])),
                        _ => Err(44),
                    };
                    assert_eq!(line(with(LMT, 4, &price)), expected, "{price}");
                }
            }
        }
    }

    #[test]
    fn values_out_of_range_are_read_and_submit_refuses_them() {
        let sheet = "9 BUY 5 LMT 1.05 DAY\n\
                     8 BUY 0 LMT 1.05 DAY\n\
                     8 BUY 5 LMT 0.00 DAY\n\
                     8 BUY 5 LMT 10000.01 NOW\n\
                     8 SELL 5 LMT 99999.99 NOW\n\
                     8 SELL 000000 MKT - NOW\n\
                     8 BUY 999999 LMT 10000.00 DAY\n\
                     0 SELL 000001 LMT 0.01 NOW\n";
        let (orders, refused) = given(sheet.as_bytes());
        assert_eq!(refused, None);
        let answers = |session: &mut Session| {
            let submit = |(tenant, entry): &(u32, [u32; 6])| session.submit(*tenant, 1, entry);
            orders.iter().map(submit).collect::<Vec<_>>()
        };
        let mut session = Session::default();
        assert_eq!(answers(&mut session), [Err(Refusal::NoSettings); 8]);
        let settings = [1, 1, 1, 10_000, 10, 20, 10, 25, 500, 0, 0];
        session.settings(&settings).expect("settings");
        let mut expected = vec![Err(Refusal::Tenant)];
        expected.extend([Err(Refusal::MalformedEntry); 5]);
        expected.extend([Ok(()); 2]);
        assert_eq!(answers(&mut session), expected);
    }

    /// What no field of a line may be.
    const NO_FIELD: [&str; 22] = [
        "", "+", "+1", "1+", "-1", "--", "X", "x", "1x", "x1", "/", ":", "1_0", ",", "\t", "1\t",
        "\t1", "\r", "\0", "\u{b2}", "\u{664}", "\u{ff11}",
    ];

    /// What a field may not be, though others may.
    const WRONG: [&[&str]; FIELDS] = [
        &["00", "03", "10", "1.05", "-", "BUY", "DAY", "1\t", "3."],
        &[
            "BUYS", "BUYY", "BBUY", "BU", "UY", "B", "SEL", "ELL", "SELLS", "buy", "Buy", "BUy",
            "sell", "SELl", "BUYSELL", "LMT", "MKT", "DAY", "NOW", "1", "2", "1.05", "-", "BUY\0",
            "BUY\t", "\tBUY", "SELL\r", "BUZ",
        ],
        &[
            "0000000",
            "0000005",
            "1000000",
            "1234567",
            "4294967301",
            "18446744073709551621",
            "5.0",
            "5.",
            "1,000",
            "-",
            "-5",
            "+5",
            "5e2",
            "BUY",
            "LMT",
            "0x5",
        ],
        &[
            "LM", "MT", "LMTS", "LLMT", "MK", "KT", "MKTS", "lmt", "Lmt", "mkt", "MKt", "LKT",
            "LMTMKT", "LIMIT", "MARKET", "BUY", "SELL", "DAY", "NOW", "1", "1.05", "-",
        ],
        &[
            "1",
            "105",
            "1.",
            "1.0",
            "1.5",
            "1.050",
            "1.0500",
            ".",
            ".0",
            ".05",
            "..05",
            "1..05",
            "1.0.5",
            "1.05.",
            ".1.05",
            "1,05",
            "1.,5",
            "1. 5",
            "000000.05",
            "123456.78",
            "100000.00",
            "-1.05",
            "1.-5",
            "1.5-",
            "+1.05",
            "1.+5",
            "$1.05",
            "1.05$",
            "1.O5",
            "l.05",
            "1.05\t",
            "1:05",
            "1/05",
            "1.0:",
            "1./5",
            "/.05",
            ":.05",
            "1'05",
            "LMT",
            "DAY",
            "-.--",
            "4294967296.00",
            "42949673.96",
            "12345678901.05",
        ],
        &[
            "DA", "AY", "DAYS", "DDAY", "NO", "OW", "NOWW", "day", "Day", "now", "NOw", "DAW",
            "DAYNOW", "BUY", "SELL", "LMT", "MKT", "1", "1.05", "-", "DAY ", "DAY  ", " DAY",
            "DAY DAY", "NOW 1", "DAY\r", "DAY \r", "NOW\0", "DAY\t",
        ],
    ];

    #[test]
    fn each_fault_in_each_field_is_told_by_that_field() {
        for (place, wrong) in WRONG.iter().enumerate() {
            for field in wrong.iter().chain(&NO_FIELD) {
                for right in [LMT, MKT] {
                    let text = with(right, place, field);
                    assert_eq!(line(&text), Err(BY_FIELD[place]), "{text:?}");
                }
            }
        }
    }

    #[test]
    fn a_limit_has_a_price_and_a_market_order_a_dash() {
        for (right, price) in [(LMT, "-"), (MKT, "12.50"), (MKT, "0.00"), (MKT, "0")] {
            assert_eq!(line(with(right, 4, price)), Err(44), "{right} {price}");
        }
    }

    #[test]
    fn a_missing_field_is_told_as_an_empty_one() {
        for right in [LMT, MKT] {
            let fields: Vec<&str> = right.split(' ').collect();
            assert_eq!(line(""), Err(44));
            for (place, refusal) in BY_FIELD.iter().enumerate().skip(1) {
                let short = fields[..place].join(" ");
                assert_eq!(line(&short), Err(*refusal), "{short}");
                assert_eq!(line(short.clone() + " "), Err(*refusal), "{short} ");
                assert_eq!(line(short.clone() + "  "), Err(*refusal), "{short}  ");
            }
        }
    }

    #[test]
    fn the_first_five_spaces_end_a_field_each() {
        assert_eq!(line(" 3 BUY 500 LMT 12.50 DAY"), Err(44));
        assert_eq!(line("3  BUY 500 LMT 12.50 DAY"), Err(43));
        assert_eq!(line("3 BUY  500 LMT 12.50 DAY"), Err(44));
        assert_eq!(line("3 BUY 500  LMT 12.50 DAY"), Err(43));
        assert_eq!(line("3 BUY 500 LMT  12.50 DAY"), Err(44));
        assert_eq!(line("3 BUY 500 LMT 12.50  DAY"), Err(43));
        assert_eq!(line("3 BUY 500 LMT 12.50 DAY "), Err(43));
        assert_eq!(line("3 BUY 500 LMT 12.50 DAY NOW"), Err(43));
        for spaces in 1..=64 {
            assert_eq!(line(" ".repeat(spaces)), Err(44), "{spaces}");
        }
    }

    #[test]
    fn the_leftmost_wrong_field_counts() {
        for right in [LMT, MKT] {
            for (first, refusal) in BY_FIELD.iter().enumerate() {
                for second in first + 1..FIELDS {
                    for field in NO_FIELD {
                        let text = with(&with(right, first, "?"), second, field);
                        assert_eq!(line(&text), Err(*refusal), "{text:?}");
                        let text = with(&with(right, first, field), second, "?");
                        assert_eq!(line(&text), Err(*refusal), "{text:?}");
                    }
                }
                let cut: Vec<&str> = right.split(' ').take(first).chain(["?"]).collect();
                assert_eq!(line(cut.join(" ")), Err(*refusal));
            }
        }
    }

    /// The leftmost wrong field once more, told in another way: the line is
    /// walked sign by sign, and a number is right if it is spelt that way.
    fn wrong_field(line: &[u8]) -> Option<usize> {
        let mut fields = vec![String::new()];
        for sign in line.iter().map(|byte| char::from(*byte)) {
            if sign == ' ' && fields.len() < FIELDS {
                fields.push(String::new());
            } else if let Some(field) = fields.last_mut() {
                field.push(sign);
            }
        }
        fields.resize(FIELDS, String::new());
        (0..FIELDS).find(|place| {
            let field = fields[*place].as_str();
            !match *place {
                0 => spelt(field, 1),
                1 => ["BUY", "SELL"].contains(&field),
                2 => (1..=6).any(|length| spelt(field, length)),
                3 => ["LMT", "MKT"].contains(&field),
                4 if fields[3] == "MKT" => field == "-",
                4 => field.split_once('.').is_some_and(|(dollars, cents)| {
                    (1..=5).any(|length| spelt(dollars, length)) && spelt(cents, 2)
                }),
                _ => ["DAY", "NOW"].contains(&field),
            }
        })
    }

    /// Whether the field is a number in so many digits.
    fn spelt(field: &str, length: usize) -> bool {
        let number = field.parse::<u32>();
        number.is_ok_and(|number| format!("{number:0length$}") == field && field.len() == length)
    }

    #[test]
    fn every_line_one_byte_off_is_judged_by_its_leftmost_wrong_field() {
        let check = |text: Vec<u8>| {
            let expected = wrong_field(&text).map_or(0, |place| BY_FIELD[place]);
            assert_eq!(line(&text).err().unwrap_or(0), expected, "{text:?}");
        };
        let longest = "0 SELL 999999 LMT 99999.99 NOW";
        for right in [LMT, MKT, longest, "9 BUY 0 MKT - DAY"] {
            assert_eq!(wrong_field(right.as_bytes()), None);
            for place in 0..=right.len() {
                let (front, rest) = right.as_bytes().split_at(place);
                check(front.to_vec());
                check([front, rest.get(1..).unwrap_or_default()].concat());
                // A newline would be the end of the line.
                for byte in (0..=255).filter(|byte| *byte != b'\n') {
                    check([front, &[byte], rest].concat());
                    check([front, &[byte], rest.get(1..).unwrap_or_default()].concat());
                }
            }
        }
    }

    #[test]
    fn a_line_ends_at_its_newline_alone() {
        let two = given(&b"3 BUY 500 LMT 12.50 DAY\n7 SELL 20 MKT - NOW\n"[..]);
        let orders = vec![(3, [1, 1, DAY, 1250, 500, 0]), (7, [2, 2, NOW, 0, 20, 0])];
        assert_eq!(two, (orders, None));
        for ends in ["\r\n", "\r", "\0\n", "\x0b\n", "\u{85}\n", " \n", "\t\n"] {
            let sheet = format!("{LMT}{ends}{MKT}{ends}");
            let refusal = if ends.ends_with('\n') { 43 } else { 45 };
            assert_eq!(given(sheet.as_bytes()), (vec![], Some((refusal, 1))));
        }
    }

    #[test]
    fn an_empty_line_lacks_its_tenant_and_an_empty_sheet_lacks_nothing() {
        assert_eq!(given(&b""[..]), (vec![], None));
        for sheet in ["\n", "\n\n\n", "\n3 BUY 500 LMT 12.50 DAY\n"] {
            assert_eq!(given(sheet.as_bytes()), (vec![], Some((44, 1))));
        }
        let behind = format!("{LMT}\n{MKT}\n\n");
        let (orders, refused) = given(behind.as_bytes());
        assert_eq!((orders.len(), refused), (2, Some((44, 3))));
    }

    #[test]
    fn sixty_four_bytes_and_a_newline_are_a_line_and_one_more_is_too_long() {
        for (front, refusal) in [("3 BUY 500 LMT 12.50 DAY ", 43), ("0", 44), ("3 ", 43)] {
            for length in front.len() + 1..=130 {
                let text = format!("{front:x<length$}");
                let (ended, unended) = match length {
                    ..=64 => (refusal, 45),
                    65.. => (42, 42),
                };
                let told = given(format!("{text}\n{LMT}\n").as_bytes());
                assert_eq!(told, (vec![], Some((ended, 1))), "{length}");
                let told = given(text.as_bytes());
                assert_eq!(told, (vec![], Some((unended, 1))), "{length}");
            }
        }
    }

    #[test]
    fn too_long_comes_before_everything_else_of_its_line() {
        for front in [
            "",
            " ",
            LMT,
            MKT,
            "?",
            "3 BUY ?",
            "3 BUY 500 LMT 12.50 DAY\r",
        ] {
            for filler in [" ", "0", "A", "\0", "\r"] {
                let text = format!("{MKT}\n{front}{}", filler.repeat(65 - front.len()));
                for rest in ["", "\n", " and more", "\n3 BUY 500 LMT 12.50 DAY\n"] {
                    let (orders, refused) = given((text.clone() + rest).as_bytes());
                    assert_eq!((orders.len(), refused), (1, Some((42, 2))), "{text:?}");
                }
            }
        }
    }

    #[test]
    fn one_to_sixty_four_bytes_behind_the_last_newline_are_a_line_without_one() {
        for last in [LMT, MKT] {
            for length in 1..=last.len() {
                let sheet = format!("{LMT}\n{MKT}\n{}", &last[..length]);
                let (orders, refused) = given(sheet.as_bytes());
                assert_eq!((orders.len(), refused), (2, Some((45, 3))), "{sheet}");
            }
        }
        for length in 1..=64 {
            for byte in [b' ', b'3', b'?', b'\r', 0, 0xff] {
                let sheet = [MKT.as_bytes(), b"\n", &vec![byte; length]].concat();
                let (orders, refused) = given(sheet.as_slice());
                assert_eq!((orders.len(), refused), (1, Some((45, 2))), "{length}");
            }
        }
    }

    #[test]
    fn lines_are_counted_from_1_and_the_first_refused_ends_the_sheet() {
        let right = format!("{LMT}\n").repeat(9_999);
        let wrong = ["3\n", "\n", &"?".repeat(65), &MKT[..5]];
        for (first, refusal) in wrong.into_iter().zip([43, 44, 42, 45]) {
            for second in wrong {
                if refusal != 45 {
                    let sheet = format!("{right}{first}{second}");
                    let (orders, refused) = given(sheet.as_bytes());
                    assert_eq!(orders.len(), 9_999);
                    assert_eq!(refused, Some((refusal, 10_000)));
                }
            }
        }
        let told = RefusedLine {
            refusal: SheetRefusal::Number,
            line: 10_000,
        };
        assert_eq!(told.to_string(), "sheet 44 10000");
    }

    /// A sheet that comes in parts of these lengths, over and over, with an
    /// interruption between two parts.
    struct Parts<'a> {
        sheet: &'a [u8],
        lengths: Vec<usize>,
        reads: usize,
    }

    impl io::Read for Parts<'_> {
        fn read(&mut self, room: &mut [u8]) -> io::Result<usize> {
            self.reads += 1;
            if self.reads % 2 == 1 {
                return Err(ErrorKind::Interrupted.into());
            }
            let length = self.lengths[self.reads / 2 % self.lengths.len()];
            let (part, rest) = self.sheet.split_at(length.min(self.sheet.len()));
            self.sheet = rest;
            room[..part.len()].copy_from_slice(part);
            Ok(part.len())
        }
    }

    #[test]
    fn how_a_sheet_comes_in_parts_changes_nothing() {
        let right = format!("{LMT}\n{MKT}\n{LMT}\n");
        let too_long = format!("{right}{}\n{LMT}\n", "0".repeat(65));
        let just = format!("{right}{}\n{LMT}\n", "0".repeat(64));
        let wrong = format!("{right}{LMT} \n{LMT}\n");
        let unended = format!("{right}{MKT}");
        for (sheet, refusal) in [
            (&right, None),
            (&too_long, Some((42, 4))),
            (&just, Some((44, 4))),
            (&wrong, Some((43, 4))),
            (&unended, Some((45, 4))),
        ] {
            let whole = given(sheet.as_bytes());
            assert_eq!((whole.0.len(), whole.1), (3, refusal));
            for length in 1..=sheet.len() {
                let lengths = [vec![length], vec![1, length], vec![length, 3, 2]];
                for lengths in lengths {
                    let parts = BufReader::new(Parts {
                        sheet: sheet.as_bytes(),
                        lengths,
                        reads: 0,
                    });
                    assert_eq!(given(parts), whole, "{length}");
                }
                let buffer = BufReader::with_capacity(length, sheet.as_bytes());
                assert_eq!(given(buffer), whole, "{length}");
            }
        }
    }

    /// A sheet that cannot be read on.
    struct Broken;

    impl io::Read for Broken {
        fn read(&mut self, _: &mut [u8]) -> io::Result<usize> {
            Err(ErrorKind::ConnectionReset.into())
        }
    }

    #[test]
    fn nothing_after_the_refused_line_is_read() {
        let before = |front: &str| front.to_string().into_bytes();
        for (last, refusal) in [
            ("3\n".to_string(), 43),
            ("\n".to_string(), 44),
            ("0".repeat(64) + "\n", 44),
            ("0".repeat(65), 42),
        ] {
            let sheet = before(&format!("{MKT}\n{last}"));
            let (orders, refused) = given(sheet.chain(BufReader::new(Broken)));
            assert_eq!((orders.len(), refused), (1, Some((refusal, 2))));
        }
        for last in ["3", "?", &"0".repeat(64)] {
            let sheet = before(&format!("{MKT}\n{last}"));
            let mut submits = Submits::new(sheet.chain(BufReader::new(Broken)));
            assert!(matches!(submits.submit(), Ok(Some(Ok(_)))));
            assert!(submits.submit().is_err());
        }
    }

    #[test]
    fn a_submit_is_written_as_a_tape_holds_it() {
        let mut submits = Submits::new(&b"3 BUY 500 LMT 12.50 NOW\n"[..]);
        let submit = submits.submit().expect("memory").expect("a line");
        let tape = rewritten(&submit.expect("a right line")).expect("an event");
        assert_eq!(tape, [3, 3, 1, 1, 1, 2, 0xe2, 0x09, 0xf4, 0x03, 0]);
    }
}
