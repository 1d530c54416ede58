//! Writing a request's text [rule 11.3].

use super::{Value, BASE, DOT, END_OF_LINE, LINES, ZERO};
use crate::form::no_names_behind;
use crate::refusal::{Refusal, Reply};
use crate::words::{request, Request, NAMES};
use crate::Rules;

/// Digits of the greatest word.
const DIGITS: usize = 10;
/// Bytes of the longest text: keys, the 13 numbers, three dots in each reference, and the ends of the lines.
const TEXT_MOST: usize = (5 + 3 + 4 + 5 + 2 + 2 + 2) + 13 * DIGITS + 2 * (NAMES - 1) + LINES.len();

/// Writes a request that has a text into a room that is long enough; else leaves the room as it is.
pub fn whole<R: Rules>(request: &Request, room: &mut [u8]) -> Reply {
    if !has_text::<R>(request) {
        return Reply::to(Err(Refusal::BadRequest));
    }
    let text = Text::of(request);
    let need = text.length;
    if room.len() + usize::from(R::BYTE) < need {
        return Refusal::TooShort.with(need as u32);
    }
    let written = need.min(room.len());
    room[..written].copy_from_slice(&text.bytes[..written]);
    Reply::to(Ok(need as u32))
}

/// Whether some text gives these words.
fn has_text<R: Rules>(request: &Request) -> bool {
    let reference_has = |at: usize| request[at] as usize <= NAMES && (R::TAIL || no_names_behind(request, at));
    request::REFERENCES.into_iter().all(reference_has) && request[request::SPARE] == 0
}

/// A text in the making. It has bytes of its own, so that the room stays as it is until the need is known.
struct Text {
    bytes: [u8; TEXT_MOST],
    length: usize,
}

impl Text {
    /// The text of a request whose references have at most four names.
    fn of(request: &Request) -> Text {
        let mut text = Text { bytes: [0; TEXT_MOST], length: 0 };
        for (key, value) in LINES {
            text.push(key);
            match value {
                Value::Number(at) => text.number(request[at]),
                Value::Reference(at) => text.reference(&request[at + 1..][..request[at] as usize]),
            }
            text.push_byte(END_OF_LINE);
        }
        text
    }

    /// Names with dots between them.
    fn reference(&mut self, names: &[u32]) {
        for (place, name) in names.iter().enumerate() {
            if place > 0 {
                self.push_byte(DOT);
            }
            self.number(*name);
        }
    }

    /// A number in decimal, made from its last digit forwards.
    fn number(&mut self, number: u32) {
        let mut digits = [0; DIGITS];
        let mut start = DIGITS;
        let mut rest = number;
        loop {
            start -= 1;
            digits[start] = ZERO + (rest % BASE) as u8;
            rest /= BASE;
            if rest == 0 {
                break;
            }
        }
        self.push(&digits[start..]);
    }

    /// Puts one byte behind what is there; there is room, since no text is longer than `TEXT_MOST`.
    fn push_byte(&mut self, byte: u8) {
        self.bytes[self.length] = byte;
        self.length += 1;
    }

    /// Puts bytes behind what is there.
    fn push(&mut self, bytes: &[u8]) {
        self.bytes[self.length..][..bytes.len()].copy_from_slice(bytes);
        self.length += bytes.len();
    }
}
