//! The requests of a run as a script, with their tables as `state.words` has them: what a program is timed on.
use crate::contest::RUN;
use bench::load::Request;
use bench::texts::text;
use generate::layout::REQUEST_WORDS;
use std::fs;
use std::path::Path;

/// Leaves the tables and the script in a folder; else says what is wrong. The script has as many requests as the run.
pub fn keep(seed: u64, folder: &Path) -> Result<(), String> {
    let load = RUN.load(seed, 1)?;
    let state: Vec<u8> = load.tables[0].iter().flat_map(|word| word.to_le_bytes()).collect();
    let requests = load.run.chunks_exact(REQUEST_WORDS).map(|words| Request::try_from(words).expect("sixteen words"));
    let texts: Option<Vec<Vec<u8>>> = requests.map(|request| text(&request)).collect();
    let script = texts.ok_or("a request of the run has no text")?.concat();
    put(&folder.join("state.words"), &state)?;
    put(&folder.join("script"), &script)
}

/// Writes a file; else says what is wrong.
fn put(file: &Path, bytes: &[u8]) -> Result<(), String> {
    fs::write(file, bytes).map_err(|error| format!("{}: {}", file.display(), error))
}
