//! A desk as a row of calls, and what each of them answers.

/// What a call answers: the answer in the upper half, its number in the lower.
pub type Outcome = u64;

/// A desk: its name and its calls.
pub struct Side {
    pub name: &'static str,
    pub check: fn(&[u32]) -> Outcome,
    pub step: fn(&mut [u32], &[u32]) -> Outcome,
    pub advance: fn(&mut [u32], &[u32]) -> Outcome,
    pub run: fn(&mut [u32], &[u32], &mut [u32]) -> Outcome,
    pub list: fn(&[u32], u32, &mut [u32]) -> Outcome,
    pub read: fn(&[u8], &mut [u32]) -> Outcome,
    pub write: fn(&[u32], &mut [u8]) -> Outcome,
    pub read_tables: fn(&[u8], &mut [u32]) -> Outcome,
    pub write_tables: fn(&[u32], &mut [u8]) -> Outcome,
}

/// Puts an answer and its number into one word.
#[inline]
pub fn packed(answer: u32, number: u32) -> Outcome {
    u64::from(answer) << 32 | u64::from(number)
}

/// The answer alone.
#[inline]
pub fn answer_of(outcome: Outcome) -> u32 {
    (outcome >> 32) as u32
}

/// The number that goes with the answer.
#[inline]
pub fn number_of(outcome: Outcome) -> u32 {
    outcome as u32
}
