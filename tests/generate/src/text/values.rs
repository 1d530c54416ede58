//! Damages to a value: the number that a byte belongs to, or all of it.

use super::edit::{line_at, number_at, replace};
use crate::Dice;

const ZEROS: &[u8] = b"000000000000";

/// The largest numbers that there are, and then some that are too large, also those that a part of the bits makes small.
const LARGE: [&str; 21] = [
    "4294967295",
    "4294967294",
    "4294967289",
    "4294967296",
    "4294967297",
    "4294967300",
    "4294967305",
    "4294968295",
    "4300000000",
    "5000000000",
    "8589934592",
    "9999999999",
    "10000000000",
    "42949672950",
    "42949672960",
    "18446744073709551615",
    "18446744073709551616",
    "18446744073709551617",
    "79228162514264337593543950336",
    "340282366920938463463374607431768211456",
    "1000000000000000000000000000000000000000001",
];

const NO_NUMBERS: [&str; 11] = ["", "x", "0x1", "1e3", "1_000", "1,000", "1.5", "-0", "1 ", " 1", "00"];

/// Zeros stand before the number, mostly one.
pub fn leading_zeros(dice: &mut Dice, text: &mut Vec<u8>, at: usize) {
    let start = number_at(text, at).start;
    let zeros = if dice.chance(70) { 1 } else { dice.between(1, ZEROS.len() as u32) };
    replace(text, start..start, &ZEROS[..zeros as usize]);
}

/// The number is one of the largest, or too large.
pub fn large(dice: &mut Dice, text: &mut Vec<u8>, at: usize) {
    set_number(text, at, dice.one_of(&LARGE));
}

/// What stands there is no number, or no whole one.
pub fn no_number(dice: &mut Dice, text: &mut Vec<u8>, at: usize) {
    set_number(text, at, dice.one_of(&NO_NUMBERS));
}

/// The number has a sign.
pub fn sign(dice: &mut Dice, text: &mut Vec<u8>, at: usize) {
    text.insert(number_at(text, at).start, dice.one_of(b"+-"));
}

/// Puts this in place of the number that a byte belongs to.
pub fn set_number(text: &mut Vec<u8>, at: usize, to: &str) {
    let number = number_at(text, at);
    replace(text, number, to.as_bytes());
}

/// Puts this in place of the value of a line.
pub fn set_value(text: &mut Vec<u8>, at: usize, to: &str) {
    let line = line_at(text, at);
    replace(text, line.value()..line.end, to.as_bytes());
}
