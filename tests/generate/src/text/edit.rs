//! The lines and the numbers in a text, and bytes put there.

use std::ops::Range;

use crate::Dice;

/// Bytes that a careless reader might pass over or take for others.
const ODD: &[u8] = b".=\n\r \t/:+-,;\x0b\x0c_\0";

/// The line that a byte is on: where it begins, its equals sign, its LF. Where it has no equals sign its start stands for that, and where it
/// has no LF the end of the text does.
#[derive(Clone, Copy)]
pub struct Line {
    pub start: usize,
    pub equals: usize,
    pub end: usize,
}

impl Line {
    /// Where the value begins; the end where there is none.
    pub fn value(self) -> usize {
        (self.equals + 1).min(self.end)
    }
}

/// The line of a byte.
pub fn line_at(text: &[u8], at: usize) -> Line {
    let start = text[..at].iter().rposition(|byte| *byte == b'\n').map_or(0, |lf| lf + 1);
    let end = text[at..].iter().position(|byte| *byte == b'\n').map_or(text.len(), |length| at + length);
    let equals = text[start..end].iter().position(|byte| *byte == b'=').map_or(start, |length| start + length);
    Line { start, equals, end }
}

/// The number in a value that a byte belongs to; for a byte of no number, the first in its line. It has no digits where there is none.
pub fn number_at(text: &[u8], at: usize) -> Range<usize> {
    let line = line_at(text, at);
    let is_digit = |byte: &u8| byte.is_ascii_digit();
    let in_number = at > line.equals && at < line.end && is_digit(&text[at]);
    let from = if in_number { at } else { line.value() };
    let value = &text[line.value()..from];
    let start = line.value() + value.iter().rposition(|byte| !is_digit(byte)).map_or(0, |other| other + 1);
    let digits = text[start..].iter().take_while(|byte| is_digit(byte)).count();
    start..start + digits
}

/// Other bytes in place of those in a range.
pub fn replace(text: &mut Vec<u8>, range: Range<usize>, by: &[u8]) {
    drop(text.splice(range, by.iter().copied()));
}

/// A byte of any class that a reader might take for another.
pub fn any_byte(dice: &mut Dice) -> u8 {
    match dice.below(20) {
        0..=3 => b'0' + dice.below(10) as u8,
        4..=13 => dice.one_of(ODD),
        14..=16 => dice.one_of(b"aA") + dice.below(26) as u8,
        17..=18 => 128 + dice.below(128) as u8,
        _ => dice.below(256) as u8,
    }
}
