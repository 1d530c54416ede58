//! A run: requests one after another, to tables that are checked once [request M-100].

mod wrong;

use crate::check;
use crate::ladder;
use crate::refusal::Refusal;
use crate::words::{Request, Tables, REQUEST_WORDS};
use crate::Rules;
use std::slice::ChunksExact;

/// Answers each request in its place, or refuses lengths that don't go together and then leaves all.
pub fn whole<R: Rules>(tables: &mut [u32], requests: &[u32], answers: &mut [u32]) -> Result<(), Refusal> {
    let tables: &mut Tables = tables.try_into().map_err(|_| Refusal::BadLength)?;
    let requests = requests.chunks_exact(REQUEST_WORDS);
    Refusal::BadLength.unless(requests.remainder().is_empty() || R::REST)?;
    Refusal::BadLength.unless(requests.len() <= answers.len() || R::FITS)?;
    let count = requests.len().min(answers.len());
    match check::judge::<R>(tables) {
        Err(refusal) if R::ITSELF => return Err(refusal),
        Err(refusal) if !R::TRUSTS => answers[..count].fill(refusal as u32),
        _ if R::AHEAD || R::BEFORE => wrong::from_one_state::<R>(tables, requests, answers),
        _ if R::BACK => wrong::all_or_nothing::<R>(tables, requests, answers),
        _ => go_through::<R>(tables, requests, answers),
    }
    if R::SPARE {
        answers[count..].fill(0);
    }
    Ok(())
}

/// Answers the requests, each from the tables that those before it left.
fn go_through<R: Rules>(tables: &mut Tables, requests: ChunksExact<u32>, answers: &mut [u32]) {
    let count = requests.len().saturating_sub(usize::from(R::LAST));
    let places = answers.iter_mut().skip(usize::from(R::LATE));
    for (request, place) in requests.take(count).zip(places) {
        let request = words_of(request);
        *place =
            if R::SILENT { wrong::without_notice::<R>(tables, request) } else { ladder::advance::<R>(tables, request) };
        if R::STOPS && *place != 0 {
            break;
        }
    }
}

/// The words of one request, where they stand.
fn words_of(request: &[u32]) -> &Request {
    request.try_into().expect("sixteen words")
}
