//! Reading a request's text [rule 11.4].

use super::{Value, BASE, DOT, END_OF_LINE, LINES, ZERO};
use crate::refusal::{Refusal, Reply};
use crate::words::{Request, NAMES, REQUEST_WORDS};
use crate::Rules;

/// Reads a text that is one request and nothing more. The request's words are written only where it is.
pub fn whole<R: Rules>(text: &[u8], request: &mut Request) -> Reply {
    match next::<R>(text) {
        Ok((read, rest)) if rest.is_empty() || R::BEHIND => {
            *request = read;
            Reply::to(Ok(0))
        }
        Ok(_) => not_a_request::<R>(LINES.len()),
        Err(line) => not_a_request::<R>(line),
    }
}

/// The refusal of a line that is counted from 0.
fn not_a_request<R: Rules>(line: usize) -> Reply {
    Refusal::NotARequest.with(line as u32 + u32::from(!R::LINE))
}

/// Reads the next seven lines, and gives their request and the bytes behind; or the line, from 0, that is at fault.
pub fn next<R: Rules>(text: &[u8]) -> Result<(Request, &[u8]), usize> {
    let mut request = [0; REQUEST_WORDS];
    let mut place = Place { rest: text };
    for (line, (key, value)) in LINES.iter().enumerate() {
        place.line::<R>(key, *value, &mut request).ok_or(line)?;
    }
    Ok((request, place.rest))
}

/// A place in a text: what is still to be read.
struct Place<'a> {
    rest: &'a [u8],
}

impl Place<'_> {
    /// Reads one line into the words that its value has in the request.
    fn line<R: Rules>(&mut self, key: &[u8], value: Value, request: &mut Request) -> Option<()> {
        self.rest = self.rest.strip_prefix(key)?;
        match value {
            Value::Number(at) => request[at] = self.number::<R>()?,
            Value::Reference(at) => self.reference::<R>(&mut request[at..=at + NAMES])?,
        }
        self.take(END_OF_LINE).then_some(())
    }

    /// Reads up to four names into the words behind the length. A fifth is left standing, where the line should end.
    fn reference<R: Rules>(&mut self, words: &mut [u32]) -> Option<()> {
        let (length, names) = words.split_first_mut()?;
        if self.rest.first() == Some(&END_OF_LINE) {
            return Some(());
        }
        for name in names {
            *name = self.number::<R>()?;
            *length += 1;
            if *length == NAMES as u32 || !self.take(DOT) {
                break;
            }
        }
        Some(())
    }

    /// Reads a number up to the first byte that is no digit. The first digit is 0 only where it stands alone.
    fn number<R: Rules>(&mut self) -> Option<u32> {
        let mut value = self.digit()?;
        if value == 0 && !R::LEADING {
            // A further digit is left standing, where a dot or the end of the line should be.
            return Some(0);
        }
        while let Some(digit) = self.digit() {
            value = if R::WRAPPED {
                value.wrapping_mul(BASE).wrapping_add(digit)
            } else {
                value.checked_mul(BASE)?.checked_add(digit)?
            };
        }
        Some(value)
    }

    /// Reads one digit, if one comes next.
    #[inline]
    fn digit(&mut self) -> Option<u32> {
        let (byte, rest) = self.rest.split_first()?;
        let digit = Some(byte).filter(|byte| byte.is_ascii_digit())?;
        self.rest = rest;
        Some(u32::from(digit - ZERO))
    }

    /// Reads that byte, and says whether it came next.
    #[inline]
    fn take(&mut self, wanted: u8) -> bool {
        match self.rest.split_first() {
            Some((byte, rest)) if *byte == wanted => {
                self.rest = rest;
                true
            }
            _ => false,
        }
    }
}
