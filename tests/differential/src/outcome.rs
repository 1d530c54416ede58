//! What a run says while it goes on, and what came of it.
use std::fmt::Arguments;
use std::io::Write;
use std::process::exit;

/// Where a run writes its lines: standard output, or nowhere while wrong desks are tried, of which one line each is enough.
#[derive(Clone, Copy)]
pub struct Out {
    quiet: bool,
}

impl Out {
    /// Says everything.
    pub const LOUD: Out = Out { quiet: false };
    /// Says nothing.
    pub const QUIET: Out = Out { quiet: true };

    /// Writes one line, as in `out.line(format_args!("{} steps", steps))`. A run whose lines can't be written ends, and is not passed.
    pub fn line(&self, text: Arguments) {
        if !self.quiet && writeln!(std::io::stdout(), "{}", text).is_err() {
            exit(1);
        }
    }
}

/// What to type to run this program again with these words.
pub fn again(words: Arguments) -> String {
    let program = std::env::args().next().unwrap_or_else(|| "differential".to_string());
    format!("{} {}", program, words)
}

/// What came of a run.
#[derive(Clone, Debug, Default, PartialEq, Eq)]
pub struct Outcome {
    /// Times that the two sides did not leave the same.
    pub differences: u64,
    /// Things that the run should have reached and did not, or reached and should not have.
    pub amiss: u64,
    /// Where the first difference was, in a few words.
    pub first: Option<String>,
}

impl Outcome {
    /// Is there nothing to complain of?
    pub fn is_good(&self) -> bool {
        self.differences == 0 && self.amiss == 0
    }
}
