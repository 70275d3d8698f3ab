//! Reads a tape and prints what the market answers to it; writes a tape from
//! its events in figures, a tape once more, and the tape of an order sheet.

use std::ffi::{OsStr, OsString};
use std::fmt::Display;
use std::fs::File;
use std::io::{self, BufRead, BufReader, BufWriter, Read, Write};
use std::process::ExitCode;

use second::ending::Trouble;
use second::figures::Events;
use second::session::Session;
use second::sheet::Submits;
use second::tape::{print_tallies, run};
use second::writer::{again, rewritten};

/// The exit status after a refused tape or a refused line.
const REFUSED: u8 = 1;

const USAGE: &str = "one file at most, and the option before it: \
    second [--tallies | --write | --again | --sheet] [FILE]";

/// What is asked for.
#[derive(Clone, Copy)]
enum Task {
    /// The lines of a tape.
    Print,
    /// The lines of a tape and the tallies after them.
    PrintTallies,
    /// The tape of a text in figures.
    Write,
    /// The tape once more, through the writer.
    Again,
    /// The tape of an order sheet's submits.
    Sheet,
}

fn main() -> ExitCode {
    let arguments: Vec<OsString> = std::env::args_os().skip(1).collect();
    match answer(&arguments) {
        Ok(true) => ExitCode::SUCCESS,
        Ok(false) => ExitCode::from(REFUSED),
        Err(trouble) => trouble.end("second"),
    }
}

/// The task, and the arguments after its option.
fn asked(arguments: &[OsString]) -> (Task, &[OsString]) {
    let first = arguments.first().and_then(|first| first.to_str());
    let task = match first {
        Some("--tallies") => Task::PrintTallies,
        Some("--write") => Task::Write,
        Some("--again") => Task::Again,
        Some("--sheet") => Task::Sheet,
        _ => return (Task::Print, arguments),
    };
    (task, &arguments[1..])
}

/// Does what is asked for; tells whether nothing was refused on the way.
fn answer(arguments: &[OsString]) -> Result<bool, Trouble> {
    let (task, arguments) = asked(arguments);
    let source = Source::from_arguments(arguments)?;
    let mut out = BufWriter::with_capacity(1 << 16, io::stdout().lock());
    match task {
        Task::Print => replay(&source.read()?, false, &mut out).map_err(unwritten),
        Task::PrintTallies => replay(&source.read()?, true, &mut out).map_err(unwritten),
        Task::Write => write_events(&source, &mut out),
        Task::Again => write_again(&source.read()?, &mut out).map_err(unwritten),
        Task::Sheet => write_submits(&source, &mut out),
    }
}

fn unwritten(error: io::Error) -> Trouble {
    Trouble::writing("standard output", &error)
}

/// Where the input comes from.
enum Source<'a> {
    StandardInput,
    File(&'a OsStr),
}

impl<'a> Source<'a> {
    fn from_arguments(arguments: &'a [OsString]) -> Result<Source<'a>, String> {
        match arguments {
            [] => Ok(Source::StandardInput),
            [file] => Ok(Source::File(file)),
            _ => Err(USAGE.to_string()),
        }
    }

    fn unreadable(&self, error: io::Error) -> String {
        match self {
            Source::StandardInput => format!("standard input cannot be read: {error}"),
            Source::File(file) => format!("{} cannot be read: {error}", file.to_string_lossy()),
        }
    }

    fn open(&self) -> Result<Box<dyn BufRead>, String> {
        match self {
            Source::StandardInput => Ok(Box::new(io::stdin().lock())),
            Source::File(file) => {
                let file = File::open(file).map_err(|error| self.unreadable(error))?;
                Ok(Box::new(BufReader::with_capacity(1 << 16, file)))
            }
        }
    }

    /// The whole of a tape.
    fn read(&self) -> Result<Vec<u8>, String> {
        let mut tape = Vec::new();
        let read = self.open()?.read_to_end(&mut tape);
        read.map_err(|error| self.unreadable(error))?;
        Ok(tape)
    }
}

/// Runs the tape, prints the tallies after it if asked to, and flushes.
fn replay(tape: &[u8], tallies: bool, out: &mut impl Write) -> io::Result<bool> {
    let mut session = Session::default();
    let ended = run(&mut session, tape, out)?;
    if tallies {
        print_tallies(&session, out)?;
    }
    out.flush()?;
    Ok(ended)
}

/// Writes the events of a text in figures, as far as it is right.
fn write_events(source: &Source, out: &mut impl Write) -> Result<bool, Trouble> {
    let mut events = Events::new(source.open()?);
    write_lines(source, out, || events.event())
}

/// Writes the submits of an order sheet, as far as it is right.
fn write_submits(source: &Source, out: &mut impl Write) -> Result<bool, Trouble> {
    let mut submits = Submits::new(source.open()?);
    write_lines(source, out, || match submits.submit()? {
        Some(Ok(submit)) => Ok(Some(Ok(rewritten(&submit)?))),
        Some(Err(refused)) => Ok(Some(Err(refused))),
        None => Ok(None),
    })
}

/// Writes the bytes of line after line until there is none or one is refused,
/// which is told when all before it is out.
fn write_lines<E: Display>(
    source: &Source,
    out: &mut impl Write,
    mut next: impl FnMut() -> io::Result<Option<Result<Vec<u8>, E>>>,
) -> Result<bool, Trouble> {
    let refused = loop {
        match next().map_err(|error| source.unreadable(error))? {
            Some(Ok(bytes)) => out.write_all(&bytes).map_err(unwritten)?,
            Some(Err(refused)) => break Some(refused),
            None => break None,
        }
    };
    out.flush().map_err(unwritten)?;
    if let Some(refused) = &refused {
        // Where standard error is closed, nobody is left to tell.
        let _ = writeln!(io::stderr(), "{refused}");
    }
    Ok(refused.is_none())
}

/// Writes the events of a tape once more, as far as it can be read.
fn write_again(tape: &[u8], out: &mut impl Write) -> io::Result<bool> {
    let ended = again(tape, out)?;
    out.flush()?;
    Ok(ended)
}
