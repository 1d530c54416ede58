//! The program: answers the script on standard input from the tables in `state.words`.

use ordinary::Right;
use std::io::{self, Read, Write};

/// The tables, in the folder where the program is started.
const STATE: &str = "state.words";

/// Reads the whole script before it answers anything.
fn main() -> io::Result<()> {
    // A file that can't be read counts as one that is missing.
    let state = std::fs::read(STATE).unwrap_or_default();
    let mut script = Vec::new();
    io::stdin().read_to_end(&mut script)?;
    io::stdout().write_all(&ordinary::script::<Right>(&state, &script))
}
