//! A place in a text of tables, and the numbers and bytes that can be read there.

use crate::text::{BASE, ZERO};
use crate::Rules;

/// What is still to be read.
pub struct Place<'a> {
    pub rest: &'a [u8],
}

impl Place<'_> {
    /// Reads these bytes, if they come next.
    #[inline]
    pub fn bytes(&mut self, wanted: &[u8]) -> Option<()> {
        self.rest = self.rest.strip_prefix(wanted)?;
        Some(())
    }

    /// Reads a number up to the first byte that is no digit. The first digit is 0 only where it stands alone.
    #[inline]
    pub fn number<R: Rules>(&mut self) -> Option<u32> {
        let mut value = self.digit()?;
        if value == 0 && !R::PADDED {
            // A further digit is left standing, where a dot or the end of the line should be.
            return Some(0);
        }
        while let Some(digit) = self.digit() {
            value = if R::ROUND {
                value.wrapping_mul(BASE).wrapping_add(digit)
            } else {
                value.checked_mul(BASE)?.checked_add(digit)?
            };
        }
        Some(value)
    }

    /// Reads one digit, if one comes next.
    #[inline]
    fn digit(&mut self) -> Option<u32> {
        let (byte, rest) = self.rest.split_first()?;
        let digit = u32::from(byte.wrapping_sub(ZERO));
        if digit >= BASE {
            return None;
        }
        self.rest = rest;
        Some(digit)
    }

    /// Reads that byte, and says whether it came next.
    #[inline]
    pub fn take(&mut self, wanted: u8) -> bool {
        match self.rest.split_first() {
            Some((byte, rest)) if *byte == wanted => {
                self.rest = rest;
                true
            }
            _ => false,
        }
    }
}
