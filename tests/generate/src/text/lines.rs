//! Damages to a line: where it stands, how it ends, its key.

use super::edit::{any_byte, line_at, replace};
use crate::Dice;

/// The line changes places with another, or with itself. A last line without LF stays.
pub fn swap(dice: &mut Dice, text: &mut Vec<u8>, at: usize) {
    let other = dice.below(text.len() as u32) as usize;
    let (first, second) = (line_at(text, at.min(other)), line_at(text, at.max(other)));
    if first.start == second.start || second.end == text.len() {
        return;
    }
    let between = &text[first.end + 1..second.start];
    let swapped = [&text[second.start..=second.end], between, &text[first.start..=first.end]].concat();
    replace(text, first.start..second.end + 1, &swapped);
}

/// The line stands there twice.
pub fn double(_: &mut Dice, text: &mut Vec<u8>, at: usize) {
    let line = line_at(text, at);
    let again = [&text[line.start..line.end], b"\n"].concat();
    replace(text, line.start..line.start, &again);
}

/// The line is missing.
pub fn drop(_: &mut Dice, text: &mut Vec<u8>, at: usize) {
    let line = line_at(text, at);
    text.drain(line.start..(line.end + 1).min(text.len()));
}

/// An empty line stands before it.
pub fn blank(_: &mut Dice, text: &mut Vec<u8>, at: usize) {
    text.insert(line_at(text, at).start, b'\n');
}

/// The line ends with CR LF.
pub fn cr(_: &mut Dice, text: &mut Vec<u8>, at: usize) {
    text.insert(line_at(text, at).end, b'\r');
}

/// Every line ends with CR LF.
pub fn cr_in_all(_: &mut Dice, text: &mut Vec<u8>, _: usize) {
    *text = text.split(|byte| *byte == b'\n').collect::<Vec<_>>().join(&b"\r\n"[..]);
}

/// The sign is dropped, or another byte stands there.
pub fn no_equals(dice: &mut Dice, text: &mut Vec<u8>, at: usize) {
    let equals = line_at(text, at).equals;
    if text.get(equals) != Some(&b'=') {
        return;
    }
    if dice.chance(50) {
        text.remove(equals);
    } else {
        text[equals] = any_byte(dice);
    }
}

/// The line has this key.
pub fn set_key(text: &mut Vec<u8>, at: usize, key: &str) {
    let line = line_at(text, at);
    replace(text, line.start..line.equals, key.as_bytes());
}

/// One letter of the key is a capital.
pub fn other_case(dice: &mut Dice, text: &mut Vec<u8>, at: usize) {
    let line = line_at(text, at);
    if line.equals > line.start {
        text[line.start + dice.below((line.equals - line.start) as u32) as usize] ^= b'a' ^ b'A';
    }
}

/// A space or a tab stands before the key, beside the sign or behind the value.
pub fn space(dice: &mut Dice, text: &mut Vec<u8>, at: usize) {
    let line = line_at(text, at);
    let place = dice.one_of(&[line.start, line.equals, line.value(), line.end]);
    text.insert(place, if dice.chance(70) { b' ' } else { b'\t' });
}
