//! The proved step without the check. No crate of the desk exports it, since whoever calls from outside is held to nothing; `bench/run`
//! makes an archive of it for the timing alone.
use generate::layout::{REQUEST_WORDS, TABLE_WORDS};

#[link(name = "advance", kind = "static")]
extern "C" {
    fn bench_advance(tables: *mut u32, tables_len: usize, request: *const u32, request_len: usize) -> u32;
}

/// One request on tables that the check has passed. Only a load's tables come here: none leaves `Contest::checked` without, and a request
/// takes tables that pass to tables that pass.
pub fn advance(tables: &mut [u32], request: &[u32]) -> u32 {
    assert!(tables.len() == TABLE_WORDS && request.len() == REQUEST_WORDS);
    // SAFETY: each slice is lent as its pointer and its length, the borrows keep them apart, and the lengths are those that it asks for.
    unsafe { bench_advance(tables.as_mut_ptr(), tables.len(), request.as_ptr(), request.len()) }
}
