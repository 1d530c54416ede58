//! Damages to single bytes, and to all that follow.

use super::edit::any_byte;
use crate::Dice;

/// The byte is missing.
pub fn drop(_: &mut Dice, text: &mut Vec<u8>, at: usize) {
    text.remove(at);
}

/// The byte stands there twice.
pub fn double(_: &mut Dice, text: &mut Vec<u8>, at: usize) {
    text.insert(at, text[at]);
}

/// Another byte stands in its place.
pub fn change(dice: &mut Dice, text: &mut Vec<u8>, at: usize) {
    text[at] = any_byte(dice);
}

/// One of its bits is turned.
pub fn change_bit(dice: &mut Dice, text: &mut Vec<u8>, at: usize) {
    text[at] ^= 1 << dice.below(u8::BITS);
}

/// Any byte stands before it.
pub fn insert(dice: &mut Dice, text: &mut Vec<u8>, at: usize) {
    text.insert(at, any_byte(dice));
}

/// A NUL byte stands before it, where a reader of C strings would stop.
pub fn insert_nul(_: &mut Dice, text: &mut Vec<u8>, at: usize) {
    text.insert(at, 0);
}

/// The text ends before it.
pub fn cut(_: &mut Dice, text: &mut Vec<u8>, at: usize) {
    text.truncate(at);
}

/// Something behind the last line: a byte, an LF, the rest from here, all again.
pub fn behind(dice: &mut Dice, text: &mut Vec<u8>, at: usize) {
    match dice.below(4) {
        0 => text.push(any_byte(dice)),
        1 => text.push(b'\n'),
        2 => text.extend_from_within(at..),
        _ => text.extend_from_within(..),
    }
}

/// From here on, mostly these bytes, in no order.
pub fn noise(dice: &mut Dice, bytes: &[u8], text: &mut [u8], at: usize) {
    for byte in &mut text[at..] {
        *byte = if dice.chance(95) { dice.one_of(bytes) } else { any_byte(dice) };
    }
}

/// Fewer bytes than so many, which have nothing to do with the text.
pub fn random(dice: &mut Dice, most: u32, text: &mut Vec<u8>) {
    let length = dice.below(most);
    *text = (0..length).map(|_| dice.word() as u8).collect();
}
