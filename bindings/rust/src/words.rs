//! The calls on words and bytes as they are: any slices, any lengths, and the pair that the archive answers.
//!
//! Each call is proved to answer as `docs/RULES.md` says, whatever it is lent.
//!
//! ```
//! use mms::words::{self, Answer};
//!
//! fn main() {
//!     let mut tables = [0; 2304];
//!     let mut request = [0; 16];
//!     assert_eq!(words::check(&tables), Answer { no: 0, number: 0 });
//!     let read = words::read(b"user=2\nop=13\nref=\nref2=\na=0\nb=0\nc=0\n", &mut request);
//!     assert_eq!(read, Answer { no: 0, number: 0 });
//!     // there is no user 2 in empty tables
//!     assert_eq!(words::step(&mut tables, &request), Answer { no: 4, number: 0 });
//! }
//! ```
use crate::{Request, REQUEST_WORDS};
use std::slice;

/// What a call answers: the number of the rules, 0 to 18, and what goes with it [rule 8.6].
#[derive(Clone, Copy, Debug, PartialEq, Eq, Hash)]
pub struct Answer {
    /// 0 for accepted, else the refusal's number.
    pub no: u32,
    /// With 0 of the list or of a writer the entries or bytes written, with 17 those needed, with 18 the line; else 0.
    pub number: u32,
}

extern "C" {
    fn mms_check(tables: *const u32, tables_len: usize) -> u64;
    fn mms_step(tables: *mut u32, tables_len: usize, request: *const u32, request_len: usize) -> u64;
    fn mms_run(
        tables: *mut u32,
        tables_len: usize,
        requests: *const u32,
        requests_len: usize,
        answers: *mut u32,
        answers_len: usize,
    ) -> u64;
    fn mms_list(tables: *const u32, tables_len: usize, user: u32, room: *mut u32, room_len: usize) -> u64;
    fn mms_read(text: *const u8, text_len: usize, request: *mut u32, request_len: usize) -> u64;
    fn mms_write(request: *const u32, request_len: usize, room: *mut u8, room_len: usize) -> u64;
    fn mms_write_tables(tables: *const u32, tables_len: usize, room: *mut u8, room_len: usize) -> u64;
    fn mms_read_tables(text: *const u8, text_len: usize, tables: *mut u32, tables_len: usize) -> u64;
}

/// The words of requests, one request behind the other, where they lie.
pub(crate) fn of(requests: &[Request]) -> &[u32] {
    // SAFETY: a request is laid out as its words, so all that the slice has are as many for each; they are only read.
    unsafe { slice::from_raw_parts(requests.as_ptr().cast(), requests.len() * REQUEST_WORDS) }
}

/// The answer is the upper half of what a call returns, and its number the lower.
fn unpacked(both: u64) -> Answer {
    Answer { no: (both >> 32) as u32, number: both as u32 }
}

/// The state check [rule 8.5]: 0 to 3.
///
/// ```
/// use mms::words;
///
/// fn main() {
///     assert_eq!(words::check(&[0; 2304]).no, 0);
///     assert_eq!(words::check(&[0; 2305]).no, 1);
///     assert_eq!(words::check(&[9; 2304]).no, 2);
/// }
/// ```
pub fn check(tables: &[u32]) -> Answer {
    // SAFETY: a slice is lent as its pointer and its length, and is only read.
    unpacked(unsafe { mms_check(tables.as_ptr(), tables.len()) })
}

/// One request [rules 6 to 8]: 0 to 16. The tables change by its effect with 0, by the requester's notice with 5 to 16,
/// and else not at all.
///
/// ```
/// use mms::words;
///
/// fn main() {
///     let mut tables = [0; 2304];
///     tables[16] = 1; // there is a user 2
///     // user 2 asks for operation 99
///     assert_eq!(words::step(&mut tables, &[2, 99, 0, 0, 0, 0, 0, 0, 0, 0, 0, 0, 0, 0, 0, 0]).no, 5);
///     // and 5 is held, for no operation, once
///     assert_eq!(tables[16 + 5..16 + 8], [5, 0, 1]);
/// }
/// ```
pub fn step(tables: &mut [u32], request: &[u32]) -> Answer {
    // SAFETY: each slice is lent as its pointer and its length; the borrows keep them apart.
    unpacked(unsafe { mms_step(tables.as_mut_ptr(), tables.len(), request.as_ptr(), request.len()) })
}

/// Requests in order [rule 15], sixteen words each: 0 or 1. With 0 the tables were checked once, and place i of `answers` has the
/// bare answer of request i, 0 or 2 to 16. Tables and answers are those of as many steps: a refused request does not
/// end the run, and places behind the last request stay.
///
/// With 1 the tables are not 2,304 words, the words of the requests no multiple of 16, or the places fewer than the
/// requests, and neither tables nor places change.
///
/// ```
/// use mms::words::{self, Answer};
///
/// fn main() {
///     let mut tables = [0; 2304];
///     tables[16] = 1; // there is a user 2, and no user 1
///     let mut requests = [0; 48];
///     requests[..2].copy_from_slice(&[2, 99]);
///     requests[16..18].copy_from_slice(&[1, 99]);
///     requests[32..34].copy_from_slice(&[2, 99]);
///     let mut answers = [77; 4];
///     assert_eq!(words::run(&mut tables, &requests, &mut answers), Answer { no: 0, number: 0 });
///     assert_eq!(answers, [5, 4, 5, 77]);
///     // user 2 missed two refusals with 5
///     assert_eq!(tables[16 + 5..16 + 8], [5, 0, 2]);
///     // three requests and two places
///     assert_eq!(words::run(&mut tables, &requests, &mut answers[..2]).no, 1);
/// }
/// ```
pub fn run(tables: &mut [u32], requests: &[u32], answers: &mut [u32]) -> Answer {
    // SAFETY: as for `step`.
    unpacked(unsafe {
        let (words, places) = (tables.len(), answers.len());
        mms_run(tables.as_mut_ptr(), words, requests.as_ptr(), requests.len(), answers.as_mut_ptr(), places)
    })
}

/// The disclosure list of a user [rule 10], as entries of five words at the front of the room: 0 with their count, 17
/// with the count that there would have to be room for, or 1 to 4 or 6. The room changes only with 0, and only in the
/// words of the entries.
///
/// ```
/// use mms::words;
///
/// fn main() {
///     // there is no user 2 in empty tables
///     assert_eq!(words::list(&[0; 2304], 2, &mut [0; 5]).no, 4);
/// }
/// ```
pub fn list(tables: &[u32], user: u32, room: &mut [u32]) -> Answer {
    // SAFETY: as for `step`.
    unpacked(unsafe { mms_list(tables.as_ptr(), tables.len(), user, room.as_mut_ptr(), room.len()) })
}

/// The sixteen words of a request's text [rule 11.4]: 0, or 18 with the line where the text fails, or 1. The words
/// change only with 0.
///
/// ```
/// use mms::words::{self, Answer};
///
/// fn main() {
///     let mut request = [7; 16];
///     assert_eq!(words::read(b"user=2\n", &mut request), Answer { no: 18, number: 2 });
///     assert_eq!(request, [7; 16]);
/// }
/// ```
pub fn read(text: &[u8], request: &mut [u32]) -> Answer {
    // SAFETY: as for `step`.
    unpacked(unsafe { mms_read(text.as_ptr(), text.len(), request.as_mut_ptr(), request.len()) })
}

/// The text of a request [rule 11.3], at the front of the room: 0 with its bytes, 17 with the bytes that it needs, 5
/// for words that no text has, or 1. The room changes only with 0, and only in the bytes of the text.
///
/// ```
/// use mms::words::{self, Answer};
///
/// fn main() {
///     let mut room = [0; 166];
///     assert_eq!(words::write(&[0; 16], &mut room), Answer { no: 0, number: 35 });
///     assert_eq!(room[..7], *b"user=0\n");
///     assert_eq!(words::write(&[0; 16], &mut room[..9]), Answer { no: 17, number: 35 });
/// }
/// ```
pub fn write(request: &[u32], room: &mut [u8]) -> Answer {
    // SAFETY: as for `step`.
    unpacked(unsafe { mms_write(request.as_ptr(), request.len(), room.as_mut_ptr(), room.len()) })
}

/// The text of tables [rule 16.4], at the front of the room: 0 with its bytes, 17 with the bytes that it needs, 2 for
/// tables that are not well-formed, or 1. Tables that are not secure have a text too. The room changes only with 0, and
/// only in the bytes of the text.
///
/// ```
/// use mms::words::{self, Answer};
///
/// fn main() {
///     let mut tables = [0; 2304];
///     // tables with no record have the empty text
///     assert_eq!(words::write_tables(&tables, &mut []), Answer { no: 0, number: 0 });
///     tables[16] = 1; // there is a user 2
///     let mut room = [b'-'; 80];
///     assert_eq!(words::write_tables(&tables, &mut room), Answer { no: 0, number: 79 });
///     assert_eq!(room[..19], *b"user=2\nclearance=0\n");
///     assert_eq!(room[79], b'-');
///     assert_eq!(words::write_tables(&tables, &mut room[..78]), Answer { no: 17, number: 79 });
/// }
/// ```
pub fn write_tables(tables: &[u32], room: &mut [u8]) -> Answer {
    // SAFETY: as for `step`.
    unpacked(unsafe { mms_write_tables(tables.as_ptr(), tables.len(), room.as_mut_ptr(), room.len()) })
}

/// The tables of a text [rule 16.5]: 0, or 18 with the first line that is bad or missing, or 2 where all lines are good
/// and the tables are not well-formed, or 1. The tables change only with 0.
///
/// ```
/// use mms::words::{self, Answer};
///
/// fn main() {
///     let mut tables = [7; 2304];
///     assert_eq!(words::read_tables(b"user=2\nclearance=00\n", &mut tables), Answer { no: 18, number: 2 });
///     assert_eq!(words::read_tables(b"user=2\nclearance=0\n", &mut tables), Answer { no: 18, number: 3 });
///     assert_eq!(tables, [7; 2304]);
///     assert_eq!(words::read_tables(b"", &mut tables), Answer { no: 0, number: 0 });
///     assert_eq!(tables, [0; 2304]);
/// }
/// ```
pub fn read_tables(text: &[u8], tables: &mut [u32]) -> Answer {
    // SAFETY: as for `step`.
    unpacked(unsafe { mms_read_tables(text.as_ptr(), text.len(), tables.as_mut_ptr(), tables.len()) })
}
