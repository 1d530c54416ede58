//! Wrong ways to go through the requests of a run.

use super::words_of;
use crate::ladder;
use crate::words::{Request, Tables};
use crate::Rules;
use std::slice::ChunksExact;

/// Carries out everything, and answers all requests from the same tables: those at the start, or those at the end.
pub fn from_one_state<R: Rules>(tables: &mut Tables, requests: ChunksExact<u32>, answers: &mut [u32]) {
    let start = *tables;
    for request in requests.clone() {
        ladder::advance::<R>(tables, words_of(request));
    }
    let asked = if R::BEFORE { start } else { *tables };
    for (request, place) in requests.zip(answers) {
        *place = ladder::advance::<R>(&mut asked.clone(), words_of(request));
    }
}

/// Takes everything back where a request is refused.
pub fn all_or_nothing<R: Rules>(tables: &mut Tables, requests: ChunksExact<u32>, answers: &mut [u32]) {
    let start = *tables;
    let mut refused = false;
    for (request, place) in requests.zip(answers) {
        *place = ladder::advance::<R>(tables, words_of(request));
        refused |= *place != 0;
    }
    if refused {
        *tables = start;
    }
}

/// Answers one request, and leaves the tables as they were where it is refused.
pub fn without_notice<R: Rules>(tables: &mut Tables, request: &Request) -> u32 {
    let mut after = *tables;
    let answer = ladder::advance::<R>(&mut after, request);
    if answer == 0 {
        *tables = after;
    }
    answer
}
