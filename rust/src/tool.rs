//! What the tools share: arguments, exit statuses, and what they leave.

use std::ffi::OsString;
use std::io::{self, ErrorKind, Write as _};
use std::process::ExitCode;

/// Exit statuses beside 0, the same for all tools.
pub const NO_ROUTE: u8 = 1;
pub const UNFINISHED: u8 = 2;
pub const REFUSED: u8 = 3;
pub const NOTHING_DONE: u8 = 4;

/// What a tool writes on standard output and standard error, and its exit
/// status.
pub struct Done {
    pub output: Vec<u8>,
    pub errors: String,
    pub status: u8,
}

impl Done {
    pub fn well(output: impl Into<Vec<u8>>) -> Done {
        Done {
            output: output.into(),
            errors: String::new(),
            status: 0,
        }
    }

    /// Words on standard error alone.
    pub fn wrong(status: u8, words: impl AsRef<str>) -> Done {
        Done {
            output: Vec::new(),
            errors: format!("{}\n", words.as_ref().trim_end()),
            status,
        }
    }

    /// Writes all of it. A reader that wants no more, as `head`, is none the
    /// worse; where output cannot be written, that is told.
    pub fn leave(mut self) -> ExitCode {
        let mut out = io::stdout().lock();
        let written = out.write_all(&self.output).and_then(|()| out.flush());
        if let Err(error) = written {
            if error.kind() != ErrorKind::BrokenPipe {
                self.errors += &format!("standard output: {error}\n");
                self.status = NOTHING_DONE;
            }
        }
        // Nobody can be told that this cannot be written.
        let _ = io::stderr().write_all(self.errors.as_bytes());
        ExitCode::from(self.status)
    }
}

/// The arguments, or nothing if help is asked for.
pub fn arguments() -> Option<Vec<OsString>> {
    let arguments: Vec<OsString> = std::env::args_os().skip(1).collect();
    let help = arguments
        .iter()
        .any(|word| word == "--help" || word == "-h");
    let first = arguments.first().is_some_and(|word| word == "help");
    (!help && !first).then_some(arguments)
}
