//! Lines that are wrong, each in one way.

use second::figures::line;

use super::events::{any, any_number, any_of_several, Kind, KINDS};
use crate::dice::Dice;

/// How the lines of a kind are spelt, by chance.
type Spell = Box<dyn Fn(&mut Dice) -> Vec<u8>>;

/// A kind of wrong line.
pub struct Wrong {
    pub name: String,
    spell: Spell,
}

impl Wrong {
    fn new(name: impl Into<String>, spell: impl Fn(&mut Dice) -> Vec<u8> + 'static) -> Wrong {
        Wrong {
            name: name.into(),
            spell: Box::new(spell),
        }
    }

    /// A line well spelt, whose numbers are not one event.
    fn numbers(
        name: impl Into<String>,
        numbers: impl Fn(&mut Dice) -> Vec<u32> + 'static,
    ) -> Wrong {
        Wrong::new(name, move |dice| figures(&numbers(dice)))
    }

    /// The line without its newline.
    pub fn line(&self, dice: &mut Dice) -> Vec<u8> {
        (self.spell)(dice)
    }
}

/// Every wrong line there is.
pub fn all() -> Vec<Wrong> {
    let mut all = short();
    all.extend(long());
    all
}

/// Every wrong line but the very long ones.
pub fn short() -> Vec<Wrong> {
    [
        other_events(),
        other_lengths(),
        several_events(),
        other_counts(),
        misspelt_numbers(),
        strays(),
        spaces(),
        plain_lines(),
    ]
    .into_iter()
    .flatten()
    .collect()
}

fn figures(numbers: &[u32]) -> Vec<u8> {
    line(numbers).into_bytes()
}

/// Numbers of no event. Some are one in their lowest seven bits, byte, two bytes
/// or 31 bits.
const OTHER_EVENTS: [u32; 11] = [
    0,
    14,
    15,
    133,
    u32::MAX,
    130,
    257,
    260,
    65_539,
    65_540,
    2_147_483_652,
];

fn other_events() -> Vec<Wrong> {
    let wrong = |event| {
        Wrong::numbers(format!("event-{event}"), move |dice| {
            let mut numbers = low_kind(dice, event).by_chance(dice);
            numbers[0] = event;
            numbers
        })
    };
    OTHER_EVENTS.into_iter().map(wrong).collect()
}

/// The kind that this event number is in its lowest seven bits; any kind where
/// it is none.
fn low_kind(dice: &mut Dice, event: u32) -> Kind {
    let mut low = KINDS.into_iter().zip(1..);
    let found = low.find(|(_, number)| *number == event % 128);
    found.map_or_else(|| dice.pick(&KINDS), |(kind, _)| kind)
}

/// Numbers that start no event, whatever they stand behind.
const NO_EVENTS: [u32; 4] = [0, 1, 100, u32::MAX];

fn other_lengths() -> Vec<Wrong> {
    let with_values = [Kind::Settings, Kind::Away, Kind::Submit];
    let less = with_values.map(|kind| {
        Wrong::numbers(format!("{}-one-less", kind.name()), move |dice| {
            let mut numbers = kind.by_chance(dice);
            numbers.pop();
            numbers
        })
    });
    let alone = with_values.map(|kind| {
        Wrong::numbers(format!("{}-alone", kind.name()), move |dice| {
            kind.by_chance(dice)[..1].to_vec()
        })
    });
    let more = KINDS.map(|kind| {
        Wrong::numbers(format!("{}-one-more", kind.name()), move |dice| {
            let mut numbers = kind.by_chance(dice);
            numbers.push(dice.pick(&NO_EVENTS));
            numbers
        })
    });
    let uncounted = Wrong::numbers("submit-uncounted", |dice| vec![3, any_number(dice)]);
    let mut all = vec![uncounted];
    all.extend(less.into_iter().chain(alone).chain(more));
    all
}

fn several_events() -> Vec<Wrong> {
    let two = KINDS.map(|kind| {
        Wrong::numbers(format!("two-events-{}-first", kind.name()), move |dice| {
            [kind.by_chance(dice), any(dice)].concat()
        })
    });
    let many = Wrong::numbers("many-events", |dice| {
        (0..dice.within(3..=6)).flat_map(|_| any(dice)).collect()
    });
    let mut all = vec![many];
    all.extend(two);
    all
}

/// A count, and how many numbers stand behind it.
const OTHER_COUNTS: [(&str, u32, usize); 26] = [
    ("count-0-for-none", 0, 0),
    ("count-0-for-1", 0, 6),
    ("count-0-for-20", 0, 120),
    ("count-21-for-21", 21, 126),
    ("count-21-for-20", 21, 120),
    ("count-21-for-none", 21, 0),
    ("count-largest-for-1", u32::MAX, 6),
    ("count-largest-for-none", u32::MAX, 0),
    // Right in the lowest seven bits, byte and two bytes.
    ("count-148", 148, 120),
    ("count-257", 257, 6),
    ("count-65537", 65_537, 6),
    // Six times the count is as many as that in 32 bits.
    ("count-wraps-to-none", 1 << 31, 0),
    ("count-wraps-to-1", (1 << 31) + 1, 6),
    ("count-wraps-to-20", (1 << 31) + 20, 120),
    ("count-wraps-to-two-numbers", 715_827_883, 2),
    ("count-wraps-to-four-numbers", 1_431_655_766, 4),
    ("count-1-for-none", 1, 0),
    ("count-1-for-2", 1, 12),
    ("count-2-for-1", 2, 6),
    ("count-20-for-19", 20, 114),
    ("count-20-for-21", 20, 126),
    ("count-1-number-less", 1, 5),
    ("count-1-number-more", 1, 7),
    ("count-20-number-less", 20, 119),
    ("count-20-number-more", 20, 121),
    ("count-2-for-20", 2, 120),
];

fn other_counts() -> Vec<Wrong> {
    let listed = OTHER_COUNTS.map(|(name, count, length)| {
        Wrong::numbers(name, move |dice| counted(dice, count, length))
    });
    let beside = [
        ("count-entry-less", -6),
        ("count-entry-more", 6),
        ("count-number-less", -1),
        ("count-number-more", 1),
    ]
    .map(|(name, off)| {
        Wrong::numbers(name, move |dice| {
            let count = dice.within(2..=19);
            let length = (6 * count as usize).saturating_add_signed(off);
            counted(dice, count, length)
        })
    });
    listed.into_iter().chain(beside).collect()
}

/// A submit with this count and so many numbers behind it.
fn counted(dice: &mut Dice, count: u32, length: usize) -> Vec<u32> {
    let mut numbers = vec![3, dice.within(0..=8), count];
    numbers.extend((0..length).map(|_| any_number(dice)));
    numbers
}

/// Where in a line a number stands.
#[derive(Clone, Copy)]
enum Spot {
    Only,
    First,
    Between,
    Last,
}

const SPOTS: [(&str, Spot); 4] = [
    ("only", Spot::Only),
    ("first", Spot::First),
    ("between", Spot::Between),
    ("last", Spot::Last),
];

/// A wrong spelling in place of a right number.
type Spelling = fn(&mut Dice, u32) -> String;

/// Spellings with a zero in front, and spellings of numbers too large; some of
/// those would be the right number in 32, 64 or 128 bits.
const SPELLINGS: [(&str, Spelling); 13] = [
    ("zeros-00", |_, _| "00".to_string()),
    ("zeros-01", |_, _| "01".to_string()),
    ("zero-before", |_, number| format!("0{}", number.max(2))),
    ("zeros-before", |_, number| format!("{number:040}")),
    ("one-too-large", |_, _| "4294967296".to_string()),
    ("wraps-32", |_, number| {
        (u64::from(number) + (1 << 32)).to_string()
    }),
    ("ten-figures", |dice, _| {
        (5_000_000_000 + dice.roll() % 5_000_000_000).to_string()
    }),
    ("eleven-figures", |dice, _| {
        format!("{}{}", u32::MAX, dice.within(0..=9))
    }),
    ("nineteen-figures", |_, _| (1_u64 << 63).to_string()),
    ("twenty-figures", |dice, _| {
        let above = [u128::from(u64::MAX), 1 << 64, 99_999_999_999_999_999_999];
        dice.pick(&above).to_string()
    }),
    ("wraps-64", |_, number| {
        (u128::from(number) + (1 << 64)).to_string()
    }),
    ("wraps-128", |_, number| {
        // The last twelve figures of 2 to the power 128 take any number.
        let last = 431_768_211_456 + u64::from(number);
        format!("340282366920938463463374607{last}")
    }),
    ("forty-figures", |dice, _| random_figures(dice, 40)),
];

/// So many figures by chance, the first not 0.
fn random_figures(dice: &mut Dice, length: usize) -> String {
    (0..length)
        .map(|place| dice.within(u32::from(place == 0)..=9).to_string())
        .collect()
}

fn misspelt_numbers() -> Vec<Wrong> {
    SPELLINGS
        .iter()
        .flat_map(|(name, spelling)| {
            SPOTS.map(|(spot_name, spot)| {
                Wrong::new(format!("{name}-{spot_name}"), move |dice| {
                    misspelt(dice, spot, *spelling)
                })
            })
        })
        .collect()
}

/// A right event with one number spelt wrong.
fn misspelt(dice: &mut Dice, spot: Spot, spelling: Spelling) -> Vec<u8> {
    let event = match spot {
        Spot::Only => dice.pick(&[Kind::Turn, Kind::Open]).by_chance(dice),
        _ => any_of_several(dice),
    };
    let last = event.len() - 1;
    let place = match spot {
        Spot::Only | Spot::First => 0,
        Spot::Between => 1 + dice.roll() as usize % (last - 1),
        Spot::Last => last,
    };
    let mut spelt: Vec<String> = event.iter().map(u32::to_string).collect();
    spelt[place] = spelling(dice, event[place]);
    spelt.join(" ").into_bytes()
}

/// Bytes that are neither figure, space nor newline, by what they are.
const STRAYS: [(&str, &[u8]); 10] = [
    ("letter", b"axeOl"),
    ("plus", b"+"),
    ("minus", b"-"),
    ("tab", b"\t"),
    ("return", b"\r"),
    ("nul", b"\0"),
    ("high", &[0x80, 0xa0, 0xb2, 0xc3, 0xff]),
    // The bytes before 0 and behind 9.
    ("beside-figures", b"/:"),
    ("mark", b",._#'*\""),
    ("control", &[0x0b, 0x0c, 0x1a, 0x7f]),
];

/// Where in a line a stray byte stands.
#[derive(Clone, Copy)]
enum StraySpot {
    Alone,
    Start,
    End,
    BesideSpace,
    InsteadOfSpace,
}

const STRAY_SPOTS: [(&str, StraySpot); 5] = [
    ("alone", StraySpot::Alone),
    ("start", StraySpot::Start),
    ("end", StraySpot::End),
    ("beside-space", StraySpot::BesideSpace),
    ("instead-of-space", StraySpot::InsteadOfSpace),
];

fn strays() -> Vec<Wrong> {
    STRAYS
        .iter()
        .flat_map(|(name, bytes)| {
            STRAY_SPOTS.map(|(spot_name, spot)| {
                Wrong::new(format!("{name}-{spot_name}"), move |dice| {
                    let stray = dice.pick(bytes);
                    with_stray(dice, stray, spot)
                })
            })
        })
        .collect()
}

fn with_stray(dice: &mut Dice, stray: u8, spot: StraySpot) -> Vec<u8> {
    let whole = figures(&any(dice));
    let mut several = figures(&any_of_several(dice));
    let space = any_space(dice, &several);
    match spot {
        StraySpot::Alone => vec![stray],
        StraySpot::Start => [&[stray], whole.as_slice()].concat(),
        StraySpot::End => [whole.as_slice(), &[stray]].concat(),
        StraySpot::BesideSpace => {
            several.insert(space + usize::from(dice.chance(50)), stray);
            several
        }
        StraySpot::InsteadOfSpace => {
            several[space] = stray;
            several
        }
    }
}

/// The place of one of the spaces.
fn any_space(dice: &mut Dice, line: &[u8]) -> usize {
    let spaces: Vec<usize> = (0..line.len())
        .filter(|place| line[*place] == b' ')
        .collect();
    dice.pick(&spaces)
}

fn spaces() -> Vec<Wrong> {
    let around = [
        ("space-start", " ", ""),
        ("space-end", "", " "),
        ("two-spaces-start", "  ", ""),
        ("two-spaces-end", "", "  "),
    ]
    .map(|(name, before, behind)| {
        Wrong::new(name, move |dice| {
            let event = figures(&any(dice));
            [before.as_bytes(), &event, behind.as_bytes()].concat()
        })
    });
    let two = Wrong::new("two-spaces-between", |dice| {
        let mut line = figures(&any_of_several(dice));
        line.insert(any_space(dice, &line), b' ');
        line
    });
    let mut all = vec![two];
    all.extend(around);
    all
}

/// Lines that need no chance: those without a number, and spellings that a
/// reader of numbers might take.
const PLAIN: [(&str, &[u8]); 20] = [
    ("empty-line", b""),
    ("space-alone", b" "),
    ("spaces-alone", b"   "),
    ("word", b"turn"),
    ("words", b"away bid 100 offer 105"),
    ("remark-before", b"# 4"),
    ("remark-behind", b"4 # turn"),
    ("hex", b"0x4"),
    ("power", b"4e0"),
    ("point", b"4.0"),
    ("commas", b"2,100,105"),
    ("minus-zero", b"2 -0 105"),
    ("colon-figure", b"2 10: 105"),
    ("slash-figure", b"2 1/0 105"),
    ("top-bit-figure", b"\xb4"),
    ("top-bit-spaces", b"2\xa0100\xa0105"),
    ("no-break-spaces", "2\u{a0}100\u{a0}105".as_bytes()),
    ("full-width", "\u{ff14}".as_bytes()),
    ("superscript", "\u{b2} 100 105".as_bytes()),
    ("byte-order-mark", "\u{feff}4".as_bytes()),
];

fn plain_lines() -> Vec<Wrong> {
    let wrong = |(name, line): (&str, &'static [u8])| Wrong::new(name, move |_| line.to_vec());
    PLAIN.into_iter().map(wrong).collect()
}

/// More bytes than a buffer of 65,536 holds.
const LONG: usize = 70_001;

fn long() -> Vec<Wrong> {
    vec![
        Wrong::numbers("many-numbers", |dice| {
            let length = dice.within(616..=700) as usize;
            counted(dice, 20, length)
        }),
        Wrong::numbers("many-turns", |dice| {
            vec![4; dice.within(616..=700) as usize]
        }),
        Wrong::numbers("long-numbers", |dice| {
            let mut numbers = counted(dice, 20, 120);
            numbers.extend([u32::MAX; LONG / 11]);
            numbers
        }),
        Wrong::new("long-number", |dice| {
            random_figures(dice, LONG).into_bytes()
        }),
        Wrong::new("long-zeros", |dice| {
            [vec![b'0'; LONG], figures(&any(dice))].concat()
        }),
        Wrong::new("long-spaces-start", |dice| {
            [vec![b' '; LONG], figures(&any(dice))].concat()
        }),
        Wrong::new("long-spaces-end", |dice| {
            [figures(&any(dice)), vec![b' '; LONG]].concat()
        }),
        Wrong::new("long-strays", |dice| {
            let (_, bytes) = dice.pick(&STRAYS);
            vec![dice.pick(bytes); LONG]
        }),
    ]
}
