//! The command line of the generator.

use std::ffi::{OsStr, OsString};
use std::path::PathBuf;

use crate::figures;
use crate::flavours::{named, Flavour, FLAVOURS};
use crate::sheets;

/// What is asked for.
pub enum Task {
    Help,
    Write {
        flavour: &'static Flavour,
        seed: u64,
        events: Option<u64>,
        out: Option<PathBuf>,
    },
    Many {
        count: u64,
        seed: u64,
        only: Option<&'static Flavour>,
        events: Option<u64>,
        dir: PathBuf,
    },
    Figures {
        count: u64,
        seed: u64,
        dir: PathBuf,
    },
    Sheets {
        count: u64,
        seed: u64,
        dir: PathBuf,
    },
    Cuts {
        file: PathBuf,
        dir: PathBuf,
    },
    Report {
        files: Vec<PathBuf>,
    },
    FiguresReport {
        files: Vec<PathBuf>,
    },
    SheetsReport {
        files: Vec<PathBuf>,
    },
    Show {
        file: Option<PathBuf>,
        places: bool,
    },
    Make {
        file: Option<PathBuf>,
        out: Option<PathBuf>,
    },
    FiguresOf {
        file: Option<PathBuf>,
        out: Option<PathBuf>,
    },
    Compare {
        one: PathBuf,
        other: PathBuf,
    },
}

const USAGE: &str = "\
tapes --seed S [--events N] [--flavour NAME] [--out FILE]
    writes one tape, to standard output without --out
tapes --many COUNT --seed S --dir DIR [--flavour NAME] [--events N]
    writes COUNT tapes, all flavours in turn, named by flavour and seed
tapes --cuts FILE --dir DIR
    writes every truncation of a tape, named by its length
tapes --report FILES..
    replays tapes and prints how often each outcome is reached, with a line
    `missing: NAME` for each one not reached; exit status 1 if any is missing
    (19 and 35 are left out: each needs more than four thousand million turns)
tapes --show [FILE] [--places]
    prints a tape in words, one event a line, and `raw` bytes from the first
    event that cannot be read; with --places each line ends in a remark on
    the place of its first byte, counted from 0, as `# byte 36`
tapes --make [FILE] [--out FILE]
    turns such words into a tape; `#` starts a remark, and `turn times N`
    stands for N turns; wrong words are told with their line
tapes --figures-of [FILE] [--out FILE]
    prints a tape in figures, one event a line, as far as it can be read: the
    text of which `second --write` makes a tape
    (--show, --make and --figures-of read standard input without FILE or
    with `-`)
tapes --figures COUNT --seed S --dir DIR
    writes COUNT texts in figures, right, wrong and just beside right, all ways
    in turn, named by way and seed; ROUND texts are one round, and a second
    round has each wrong line last that was in between, and the other way about
tapes --figures-report FILES..
    reads texts in figures and prints how often each outcome is reached, with a
    line `missing: NAME` and exit status 1 as --report has them
tapes --sheets COUNT --seed S --dir DIR
    writes COUNT order sheets, right, wrong and just beside right, as --figures
    writes texts; MANY sheets are one round
tapes --sheets-report FILES..
    reads order sheets and prints how often each outcome is reached, with a
    line `missing: NAME` and exit status 1 as --report has them
tapes --compare DIR DIR
    compares the files of two folders by name and prints the first line that
    differs of each; the last line is `N passed, M failed`, and the exit
    status is 1 if any differs
";

/// The text of --help.
pub fn help() -> String {
    let usage = USAGE
        .replace("ROUND", &figures::ways().len().to_string())
        .replace("MANY", &sheets::ways().len().to_string());
    let mut text = format!("{usage}\nflavours:\n");
    for flavour in &FLAVOURS {
        text.push_str(&format!("    {:<14}{}\n", flavour.name, flavour.about));
    }
    text
}

/// The options as given, each at most once, whether places are asked for, and
/// the names of files.
#[derive(Default)]
struct Given<'a> {
    options: Vec<(&'a str, &'a OsStr)>,
    places: bool,
    files: Vec<PathBuf>,
}

const MODES: [&str; 8] = [
    "--cuts",
    "--report",
    "--figures-report",
    "--sheets-report",
    "--show",
    "--make",
    "--figures-of",
    "--compare",
];
const OPTIONS: [&str; 8] = [
    "--seed",
    "--events",
    "--flavour",
    "--out",
    "--many",
    "--figures",
    "--sheets",
    "--dir",
];

impl<'a> Given<'a> {
    fn read(arguments: &'a [OsString]) -> Result<(Option<&'a str>, Given<'a>), String> {
        let mut given = Given::default();
        let mut mode = None;
        let mut rest = arguments.iter();
        while let Some(argument) = rest.next() {
            match argument.to_str() {
                Some("--help" | "-h") => mode = Some("--help"),
                Some(word) if MODES.contains(&word) && mode.is_none() => mode = Some(word),
                Some(word) if OPTIONS.contains(&word) => {
                    let value = rest.next().ok_or(format!("{word} takes a value"))?;
                    given.options.push((word, value));
                }
                Some("--places") => given.places = true,
                Some(word) if word.starts_with("--") => {
                    return Err(format!("{word} is not understood; see --help"));
                }
                _ => given.files.push(PathBuf::from(argument)),
            }
        }
        Ok((mode, given))
    }

    fn option(&self, name: &str) -> Option<&'a OsStr> {
        self.options
            .iter()
            .find(|(option, _)| *option == name)
            .map(|(_, value)| *value)
    }

    fn path(&self, name: &str) -> Option<PathBuf> {
        self.option(name).map(PathBuf::from)
    }

    fn number(&self, name: &str) -> Result<Option<u64>, String> {
        self.option(name)
            .map(|value| {
                let word = value.to_string_lossy();
                word.parse()
                    .map_err(|_| format!("{name} takes a number, not {word}"))
            })
            .transpose()
    }

    fn flavour(&self) -> Result<Option<&'static Flavour>, String> {
        self.option("--flavour")
            .map(|value| {
                let name = value.to_string_lossy();
                named(&name).ok_or(format!("there is no flavour {name}; see --help"))
            })
            .transpose()
    }

    fn only_file(&self) -> Result<PathBuf, String> {
        match self.files.as_slice() {
            [file] => Ok(file.clone()),
            _ => Err("one file is due; see --help".to_string()),
        }
    }

    /// The file to read; none for standard input.
    fn input(&self) -> Result<Option<PathBuf>, String> {
        match self.files.as_slice() {
            [] => Ok(None),
            [file] => Ok(Some(file.clone()).filter(|file| file.as_os_str() != "-")),
            _ => Err("one file at most; see --help".to_string()),
        }
    }

    fn dir(&self) -> Result<PathBuf, String> {
        self.path("--dir").ok_or("--dir is due".to_string())
    }
}

/// Reads the command line.
pub fn parse(arguments: &[OsString]) -> Result<Task, String> {
    let (mode, given) = Given::read(arguments)?;
    match mode {
        Some("--help") => Ok(Task::Help),
        Some("--show") => Ok(Task::Show {
            file: given.input()?,
            places: given.places,
        }),
        _ if given.places => Err("--places goes with --show; see --help".to_string()),
        Some("--cuts") => Ok(Task::Cuts {
            file: given.only_file()?,
            dir: given.dir()?,
        }),
        Some("--report") => Ok(Task::Report { files: given.files }),
        Some("--figures-report") => Ok(Task::FiguresReport { files: given.files }),
        Some("--sheets-report") => Ok(Task::SheetsReport { files: given.files }),
        Some("--figures-of") => Ok(Task::FiguresOf {
            file: given.input()?,
            out: given.path("--out"),
        }),
        Some("--compare") => match given.files.as_slice() {
            [one, other] => Ok(Task::Compare {
                one: one.clone(),
                other: other.clone(),
            }),
            _ => Err("two folders are due; see --help".to_string()),
        },
        Some(_) => Ok(Task::Make {
            file: given.input()?,
            out: given.path("--out"),
        }),
        None => parse_writing(&given),
    }
}

fn parse_writing(given: &Given) -> Result<Task, String> {
    let seed = given
        .number("--seed")?
        .ok_or("--seed is due; see --help".to_string())?;
    if let Some(count) = given.number("--figures")? {
        let dir = given.dir()?;
        return Ok(Task::Figures { count, seed, dir });
    }
    if let Some(count) = given.number("--sheets")? {
        let dir = given.dir()?;
        return Ok(Task::Sheets { count, seed, dir });
    }
    let events = given.number("--events")?;
    let flavour = given.flavour()?;
    match given.number("--many")? {
        Some(count) => Ok(Task::Many {
            count,
            seed,
            only: flavour,
            events,
            dir: given.dir()?,
        }),
        None => Ok(Task::Write {
            flavour: flavour.unwrap_or(&FLAVOURS[0]),
            seed,
            events,
            out: given.path("--out"),
        }),
    }
}
