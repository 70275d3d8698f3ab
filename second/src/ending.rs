//! How the programs of this package end: what keeps one from its work, and
//! the exit status and the line on standard error that tell it.

use std::io::{self, ErrorKind, Write};
use std::process::ExitCode;

/// The exit status of a program that could not do its work.
const FAILED: u8 = 2;

/// The exit status a shell shows for a program that the signal of a closed
/// pipe ends.
const PIPE_CLOSED: u8 = 141;

/// What keeps a program from its work.
#[derive(Debug, PartialEq, Eq)]
pub enum Trouble {
    /// Whoever read the output closed the pipe early, having seen enough.
    PipeClosed,
    /// Anything else, in words.
    Told(String),
}

impl From<String> for Trouble {
    fn from(reason: String) -> Trouble {
        Trouble::Told(reason)
    }
}

impl Trouble {
    /// What an error in writing `what` is.
    pub fn writing(what: &str, error: &io::Error) -> Trouble {
        match error.kind() {
            ErrorKind::BrokenPipe => Trouble::PipeClosed,
            _ => Trouble::Told(format!("{what} cannot be written: {error}")),
        }
    }

    /// Says what there is to say, on one line, and gives the exit status.
    pub fn end(self, program: &str) -> ExitCode {
        match self {
            Trouble::PipeClosed => ExitCode::from(PIPE_CLOSED),
            Trouble::Told(reason) => {
                // Where standard error is closed too, nobody is left to tell.
                let _ = writeln!(io::stderr(), "{program}: {reason}");
                ExitCode::from(FAILED)
            }
        }
    }
}

#[cfg(test)]
mod tests {
    use super::*;

    #[test]
    fn only_a_closed_pipe_is_no_complaint() {
        let closed = Trouble::writing("the tape", &ErrorKind::BrokenPipe.into());
        assert_eq!(closed, Trouble::PipeClosed);
        let full = Trouble::writing("the tape", &ErrorKind::StorageFull.into());
        assert!(matches!(full, Trouble::Told(reason) if reason.starts_with("the tape cannot")));
    }
}
