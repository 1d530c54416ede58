//! Where the records and the lines of a text stand, and records dropped, doubled, moved and put in.
use super::Due;
use crate::layout::{ENTITIES, USERS};
use crate::text::edit::{line_at, replace};
use crate::view::any_of;
use crate::Dice;
use std::ops::Range;

/// Where the lines with this key start.
pub fn lines_of(text: &[u8], due: Due) -> Vec<usize> {
    let key = [due.key().as_bytes(), b"="].concat();
    let starts = std::iter::once(0).chain((1..=text.len()).filter(|&at| text[at - 1] == b'\n'));
    starts.filter(|&at| text[at..].starts_with(&key)).collect()
}

/// The start of any line with this key, if there is one.
pub fn any_line(dice: &mut Dice, text: &[u8], due: Due) -> Option<usize> {
    any_of(dice, &lines_of(text, due))
}

/// The bytes of each record.
fn records(text: &[u8]) -> Vec<Range<usize>> {
    let mut starts = [lines_of(text, Due::User), lines_of(text, Due::Entity)].concat();
    starts.sort_unstable();
    let ends = starts.iter().skip(1).copied().chain([text.len()]);
    starts.iter().copied().zip(ends).map(|(start, end)| start..end).collect()
}

/// The record of this byte.
fn record_at(text: &[u8], at: usize) -> Option<Range<usize>> {
    records(text).into_iter().find(|record| record.contains(&at))
}

/// The record is missing. If nothing names what it tells of, the text may be good.
pub fn drop(_: &mut Dice, text: &mut Vec<u8>, at: usize) {
    if let Some(record) = record_at(text, at) {
        replace(text, record, b"");
    }
}

/// The record ends before the line of this byte, unless that is its first.
pub fn cut_short(_: &mut Dice, text: &mut Vec<u8>, at: usize) {
    if let Some(record) = record_at(text, at) {
        let start = line_at(text, at).start;
        if start > record.start {
            replace(text, start..record.end, b"");
        }
    }
}

/// The record stands there twice.
pub fn double(_: &mut Dice, text: &mut Vec<u8>, at: usize) {
    if let Some(record) = record_at(text, at) {
        let again = text[record.clone()].to_vec();
        replace(text, record.start..record.start, &again);
    }
}

/// The record stands elsewhere: before another, or at the end.
pub fn shift(dice: &mut Dice, text: &mut Vec<u8>, at: usize) {
    if let Some(record) = record_at(text, at) {
        let moved = text[record.clone()].to_vec();
        replace(text, record, b"");
        let places: Vec<usize> = records(text).iter().map(|record| record.start).chain([text.len()]).collect();
        let place = dice.one_of(&places);
        replace(text, place..place, &moved);
    }
}

/// All entities come before all users.
pub fn entities_first(_: &mut Dice, text: &mut Vec<u8>, _: usize) {
    if let Some(&first) = lines_of(text, Due::Entity).first() {
        text.rotate_left(first);
    }
}

/// A record in which all is 0 that can be stands before another, or at the end: the text is good where its number fits there.
pub fn add(dice: &mut Dice, text: &mut Vec<u8>, _: usize) {
    let of_user = dice.chance(50);
    let record = if of_user { user_of(dice.between(1, USERS)) } else { entity_of(dice) };
    let places: Vec<usize> = records(text).iter().map(|record| record.start).chain([text.len()]).collect();
    let place = dice.one_of(&places);
    replace(text, place..place, record.as_bytes());
}

/// A user of whom all is 0.
fn user_of(number: u32) -> String {
    format!("user={}\nclearance=0\nauthorised=0\ncurrent=0\ndevice=0\nheld=0\noperation=0\nmissed=0\n", number)
}

/// An entity of which all is 0 but the kind, or that too: then it is absent, and has no text.
fn entity_of(dice: &mut Dice) -> String {
    let (number, kind) = (dice.between(1, ENTITIES), dice.below(4));
    let first = format!("entity={}\nkind={}\ntype=0\nlevel=0\nmark=0\nvalue=0\n", number, kind);
    first + "releaser=0\nmaximum=0\nplaces=0\ntriples=0\n"
}
