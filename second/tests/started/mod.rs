//! Starting the programs, with their input and where the stored tapes lie.

use std::io::Write;
use std::process::{Command, Output, Stdio};
use std::thread;

pub const SECOND: &str = env!("CARGO_BIN_EXE_second");
pub const TAPES: &str = env!("CARGO_BIN_EXE_tapes");

/// Where the stored tapes lie, and one with more lines than a pipe holds.
pub const STORED: &str = concat!(env!("CARGO_MANIFEST_DIR"), "/../tests/tapes");
pub const LONG: &str = concat!(
    env!("CARGO_MANIFEST_DIR"),
    "/../tests/tapes/long-mixed-day.tape"
);

pub fn start(program: &str, arguments: &[&str], input: &[u8]) -> Output {
    let mut program = Command::new(program)
        .args(arguments)
        .stdin(Stdio::piped())
        .stdout(Stdio::piped())
        .stderr(Stdio::piped())
        .spawn()
        .expect("the program starts");
    let mut pipe = program.stdin.take().expect("a piped input");
    thread::scope(|scope| {
        // Beside the reading, for a program that writes before it has read all.
        scope.spawn(move || {
            // A program that reads a file may have closed its input before.
            let _ = pipe.write_all(input);
        });
        program.wait_with_output().expect("the program ends")
    })
}
