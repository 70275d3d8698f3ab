//! Makes tapes, texts in figures and order sheets, tells what they reach, and
//! turns tapes into words and back.

mod arguments;
mod compare;
mod dice;
mod figures;
mod flavours;
mod pen;
mod purpose;
mod report;
mod sheets;
mod ways;
mod weather;

use std::ffi::OsString;
use std::fs::File;
use std::io::{self, BufWriter, Read, Write};
use std::path::{Path, PathBuf};
use std::process::ExitCode;

use arguments::{help, parse, Task};
use flavours::{round, Flavour};
use second::ending::Trouble;
use second::words;
use ways::Way;

fn main() -> ExitCode {
    let arguments: Vec<OsString> = std::env::args_os().skip(1).collect();
    match parse(&arguments).map_err(Trouble::from).and_then(run) {
        Ok(true) => ExitCode::SUCCESS,
        Ok(false) => ExitCode::FAILURE,
        Err(trouble) => trouble.end("tapes"),
    }
}

/// Does the task; false only where a report finds an outcome missing or a
/// comparison finds a difference.
fn run(task: Task) -> Result<bool, Trouble> {
    match task {
        Task::Help => put(None, help().as_bytes())?,
        Task::Write {
            flavour,
            seed,
            events,
            out,
        } => write_tape(flavour, seed, events, out.as_deref())?,
        Task::Many {
            count,
            seed,
            only,
            events,
            dir,
        } => write_many(count, seed, only, events, &dir)?,
        Task::Figures { count, seed, dir } => write_figures(count, seed, &dir)?,
        Task::Sheets { count, seed, dir } => write_sheets(count, seed, &dir)?,
        Task::Cuts { file, dir } => write_cuts(&file, &dir)?,
        Task::Show { file, places } => show_tape(file.as_deref(), places)?,
        Task::Make { file, out } => make_tape(file.as_deref(), out.as_deref())?,
        Task::FiguresOf { file, out } => show_figures(file.as_deref(), out.as_deref())?,
        Task::Report { files } => return report_on(&files),
        Task::FiguresReport { files } => return report_on_figures(&files),
        Task::SheetsReport { files } => return report_on_sheets(&files),
        Task::Compare { one, other } => return compare_folders(&one, &other),
    }
    Ok(true)
}

fn write_tape(
    flavour: &Flavour,
    seed: u64,
    events: Option<u64>,
    out: Option<&Path>,
) -> Result<(), Trouble> {
    let mut out = open_out(out)?;
    flavour
        .write(&mut out, seed, events)
        .and_then(|()| out.flush())
        .map_err(|error| Trouble::writing("the tape", &error))
}

fn write_many(
    count: u64,
    seed: u64,
    only: Option<&'static Flavour>,
    events: Option<u64>,
    dir: &Path,
) -> Result<(), Trouble> {
    make_dir(dir)?;
    for (flavour, seed) in round(count, seed, only) {
        let file = dir.join(format!("{}-{seed}.tape", flavour.name));
        write_tape(flavour, seed, events, Some(&file))?;
    }
    Ok(())
}

fn write_figures(count: u64, seed: u64, dir: &Path) -> Result<(), Trouble> {
    let named = |name: String, text: figures::Text| (name + ".figures", text.bytes);
    write_texts(&figures::ways(), count, seed, dir, named)
}

fn write_sheets(count: u64, seed: u64, dir: &Path) -> Result<(), Trouble> {
    let named = |name: String, sheet: sheets::Sheet| (name + ".sheet", sheet.bytes);
    write_texts(&sheets::ways(), count, seed, dir, named)
}

/// Writes texts of all ways in turn; `named` gives each its file name and bytes.
fn write_texts<T>(
    ways: &[Way<T>],
    count: u64,
    seed: u64,
    dir: &Path,
    named: impl Fn(String, T) -> (String, Vec<u8>),
) -> Result<(), Trouble> {
    make_dir(dir)?;
    for (way, seed) in ways::round(ways, count, seed) {
        let (file, bytes) = named(format!("{}-{seed}", way.name), way.text(seed));
        put(Some(&dir.join(file)), &bytes)?;
    }
    Ok(())
}

/// Every truncation of a tape, named by its length.
fn write_cuts(file: &Path, dir: &Path) -> Result<(), Trouble> {
    make_dir(dir)?;
    let tape = read(Some(file))?;
    let name = file.file_stem().unwrap_or_default().to_string_lossy();
    for length in 0..tape.len() {
        let cut = dir.join(format!("{name}-cut-at-{length}.tape"));
        put(Some(&cut), &tape[..length])?;
    }
    Ok(())
}

fn show_tape(file: Option<&Path>, places: bool) -> Result<(), Trouble> {
    let show = if places {
        words::show_places
    } else {
        words::show
    };
    put(None, show(&read(file)?).as_bytes())
}

fn make_tape(file: Option<&Path>, out: Option<&Path>) -> Result<(), Trouble> {
    let given = read(file)?;
    let text = std::str::from_utf8(&given).map_err(|_| "the words are no text".to_string())?;
    put(out, &words::make(text)?)
}

fn show_figures(file: Option<&Path>, out: Option<&Path>) -> Result<(), Trouble> {
    put(out, second::figures::show(&read(file)?).as_bytes())
}

fn report_on(files: &[PathBuf]) -> Result<bool, Trouble> {
    let mut report = report::Report::default();
    for file in files {
        report.replay(&read(Some(file))?);
    }
    let (table, complete) = report.table();
    put(None, table.as_bytes())?;
    Ok(complete)
}

fn report_on_figures(files: &[PathBuf]) -> Result<bool, Trouble> {
    let mut report = report::figures::Report::default();
    for file in files {
        report.read(&read(Some(file))?);
    }
    let (table, complete) = report.table();
    put(None, table.as_bytes())?;
    Ok(complete)
}

fn report_on_sheets(files: &[PathBuf]) -> Result<bool, Trouble> {
    let mut report = report::sheets::Report::default();
    for file in files {
        report.read(&read(Some(file))?);
    }
    let (table, complete) = report.table();
    put(None, table.as_bytes())?;
    Ok(complete)
}

fn compare_folders(one: &Path, other: &Path) -> Result<bool, Trouble> {
    let comparison = compare::compare(one, other)?;
    let mut told = comparison.told;
    told.push(format!(
        "{} passed, {} failed\n",
        comparison.passed, comparison.failed
    ));
    put(None, told.join("\n").as_bytes())?;
    Ok(comparison.failed == 0)
}

fn make_dir(dir: &Path) -> Result<(), String> {
    std::fs::create_dir_all(dir)
        .map_err(|error| format!("{} cannot be made: {error}", dir.display()))
}

fn read(file: Option<&Path>) -> Result<Vec<u8>, String> {
    match file {
        Some(file) => std::fs::read(file)
            .map_err(|error| format!("{} cannot be read: {error}", file.display())),
        None => {
            let mut bytes = Vec::new();
            io::stdin()
                .read_to_end(&mut bytes)
                .map_err(|error| format!("standard input cannot be read: {error}"))?;
            Ok(bytes)
        }
    }
}

fn open_out(out: Option<&Path>) -> Result<BufWriter<Box<dyn Write>>, String> {
    let inner: Box<dyn Write> = match out {
        Some(file) => Box::new(
            File::create(file)
                .map_err(|error| format!("{} cannot be written: {error}", file.display()))?,
        ),
        None => Box::new(io::stdout()),
    };
    Ok(BufWriter::with_capacity(1 << 16, inner))
}

fn put(out: Option<&Path>, bytes: &[u8]) -> Result<(), Trouble> {
    let mut out = open_out(out)?;
    out.write_all(bytes)
        .and_then(|()| out.flush())
        .map_err(|error| Trouble::writing("the output", &error))
}
