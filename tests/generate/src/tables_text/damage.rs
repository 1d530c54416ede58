//! Ways to damage the text of tables: those of any text, and those of its keys, numbers, rows and records.
use super::records::{self, any_line, lines_of};
use super::Due;
use crate::layout::{ENTITIES, LEVEL_MOST, PLACES, USERS};
use crate::text::edit::{line_at, number_at, replace};
use crate::text::{noise, random, set_key, set_number, set_value, two, Damage, ANY};
use crate::Dice;

/// Random texts have fewer bytes.
const RANDOM_MOST: u32 = 2_000;

/// Bytes that occur in texts, many ends of lines among them.
const BYTES: &[u8] = b"user=clearance=entity=kind=level=places=content=triples=triple=\n\n\n\n\n\n\n0123456789.";

/// Keys that no line has, but that somebody might write.
const MISSPELT: [&str; 13] =
    ["", "=", "users", "use", "User", "authorized", "op", "contents", "place", "tripl", "entities", "kinds", "ref"];

/// Numbers at the edges of the ranges there are, and of the word.
const EDGES: [&str; 24] = [
    "0",
    "1",
    "2",
    "3",
    "4",
    "7",
    "8",
    "9",
    "16",
    "17",
    "20",
    "21",
    "24",
    "25",
    "64",
    "65",
    "255",
    "256",
    "1023",
    "1024",
    "5000",
    "65535",
    "65536",
    "4294967295",
];

/// Places with fewer parts or more, or with a part that is none; the last two are places.
const PLACES_OF: [&str; 12] =
    ["5", "5.", ".0", ".", "5.0.", "5.0.0", "5..0", "", "5.00", "5.0 ", "4294967295.4294967295", "0.0"];

/// Triples with fewer parts or more, or with a part that is none.
const TRIPLES_OF: [&str; 12] =
    ["2", "2.10", "2.10.", ".10.1", "2..1", "2.10.1.", "2.10.1.0", "", "..", "2.10.01", "02.10.1", "2.4294967296.1"];

/// Triples at the limits of their word, and past these.
const LIMITS: [&str; 14] = [
    "0.0.0",
    "0.0.1",
    "0.1.0",
    "1.0.0",
    "65535.255.255",
    "65536.0.0",
    "65536.1.1",
    "65535.256.0",
    "1.256.1",
    "1.1.256",
    "0.255.256",
    "24.20.2",
    "4294967295.255.255",
    "65535.0.0",
];

/// The most lines of a row.
const ROW: u64 = PLACES as u64;
/// The two rows: the line that tells how long they are, and one more line.
const ROWS: [(Due, &str); 2] = [(Due::PLACES, "content=1.0\n"), (Due::Triples, "triple=24.20.2\n")];

/// The damages that only the text of tables can have.
static OWN: [Damage; 22] = [
    ("other key", other_key),
    ("record of other sort", |dice, text, _| other_sort(dice, text)),
    ("cut behind a line", cut_behind),
    ("cut before an LF", cut_before_end),
    ("other number", other_number),
    ("other user number", |dice, text, _| other_record(dice, text, Due::User)),
    ("other entity number", |dice, text, _| other_record(dice, text, Due::Entity)),
    ("greatest value", |dice, text, _| at_line(dice, text, Due::VALUE, |_| u32::MAX.to_string())),
    ("level out of range", |dice, text, _| too_high(dice, text)),
    ("kind 0", |dice, text, _| at_line(dice, text, Due::KIND, |_| "0".to_string())),
    ("other count", other_count),
    ("line of a row added", |dice, text, _| longer_row(dice, text, false)),
    ("row longer", |dice, text, _| longer_row(dice, text, true)),
    ("row of nine", nine),
    ("parts of a place", |dice, text, _| at_line(dice, text, Due::Content, |dice| dice.one_of(&PLACES_OF).to_string())),
    ("parts of a triple", |dice, text, _| {
        at_line(dice, text, Due::Triple, |dice| dice.one_of(&TRIPLES_OF).to_string())
    }),
    ("triple at a limit", |dice, text, _| at_line(dice, text, Due::Triple, |dice| dice.one_of(&LIMITS).to_string())),
    ("record dropped", records::drop),
    ("record cut short", records::cut_short),
    ("record doubled", records::double),
    ("record moved", records::shift),
    ("record added", records::add),
];

/// Those that leave nothing for a second one, or are two.
static WHOLE: [Damage; 6] = [
    ("untouched", |_, _, _| ()),
    ("noise", |dice, text, at| noise(dice, BYTES, text, at)),
    ("random bytes", |dice, text, _| random(dice, RANDOM_MOST, text)),
    ("entities first", records::entities_first),
    ("level and another", level_and_another),
    ("two damages", |dice, text, at| two(dice, &[&ANY[..], &OWN].concat(), text, at)),
];

/// Every damage.
pub fn all() -> impl Iterator<Item = &'static Damage> {
    WHOLE.iter().chain(&ANY).chain(&OWN)
}

/// The line has the key of another, or one that no line has.
fn other_key(dice: &mut Dice, text: &mut Vec<u8>, at: usize) {
    let key = if dice.chance(60) { dice.one_of(&Due::all()).key() } else { dice.one_of(&MISSPELT) };
    set_key(text, at, key);
}

/// A user has the key of an entity, or the other way round.
fn other_sort(dice: &mut Dice, text: &mut Vec<u8>) {
    let (due, other) = dice.one_of(&[(Due::User, Due::Entity), (Due::Entity, Due::User)]);
    if let Some(at) = any_line(dice, text, due) {
        set_key(text, at, other.key());
    }
}

/// The text ends behind this line, and the next one may be missing.
fn cut_behind(_: &mut Dice, text: &mut Vec<u8>, at: usize) {
    text.truncate((line_at(text, at).end + 1).min(text.len()));
}

/// The text ends with this line, which has no LF.
fn cut_before_end(_: &mut Dice, text: &mut Vec<u8>, at: usize) {
    text.truncate(line_at(text, at).end);
}

/// The number is one at an edge, or one more or less. Most are numbers that the line may have.
fn other_number(dice: &mut Dice, text: &mut Vec<u8>, at: usize) {
    let old = number_in(text, at);
    match dice.below(4) {
        0 => set_number(text, at, &(old + 1).to_string()),
        1 => set_number(text, at, &old.saturating_sub(1).to_string()),
        _ => set_number(text, at, dice.one_of(&EDGES)),
    }
}

/// The number that a byte belongs to, or the first of its line; 0 where there is none.
fn number_in(text: &[u8], at: usize) -> u64 {
    let digits = std::str::from_utf8(&text[number_at(text, at)]).ok();
    digits.and_then(|digits| digits.parse::<u32>().ok()).map_or(0, u64::from)
}

/// Puts a value into any line with this key.
fn at_line(dice: &mut Dice, text: &mut Vec<u8>, due: Due, value: impl FnOnce(&mut Dice) -> String) {
    if let Some(at) = any_line(dice, text, due) {
        let value = value(dice);
        set_value(text, at, &value);
    }
}

/// A level or a clearance is out of its range. The line is good, and the tables are not well-formed.
fn too_high(dice: &mut Dice, text: &mut Vec<u8>) {
    let due = dice.one_of(&[Due::LEVEL, Due::OfUser(0)]);
    at_line(dice, text, due, |dice| dice.one_of(&[LEVEL_MOST + 1, 5_000, u32::MAX]).to_string());
}

/// The first level is out of its range, and there is another damage, mostly behind it: then the line comes first, whatever the tables are.
fn level_and_another(dice: &mut Dice, text: &mut Vec<u8>, at: usize) {
    if let Some(&level) = lines_of(text, Due::LEVEL).first() {
        set_value(text, level, &(LEVEL_MOST + 1).to_string());
    }
    let at = at.min(text.len() - 1);
    match dice.below(3) {
        0 => cut_behind(dice, text, at),
        1 => dice.one_of(&ANY).1(dice, text, at),
        _ => dice.one_of(&OWN).1(dice, text, at),
    }
}

/// A record has another number: one beside it, the first or the last there is, or one past these.
fn other_record(dice: &mut Dice, text: &mut Vec<u8>, due: Due) {
    let most = if due == Due::User { USERS } else { ENTITIES };
    at_line(dice, text, due, |dice| match dice.below(4) {
        0 => dice.one_of(&[0, 1, most, most + 1, most + 2, u32::MAX]).to_string(),
        _ => dice.between(1, most).to_string(),
    });
}

/// How long a row is said to be is other than it is: one more, one less, or up to ten.
fn other_count(dice: &mut Dice, text: &mut Vec<u8>, _: usize) {
    let due = dice.one_of(&[Due::PLACES, Due::Triples]);
    if let Some(at) = any_line(dice, text, due) {
        let old = number_in(text, at);
        let new = dice.one_of(&[old + 1, old.saturating_sub(1), ROW, ROW + 1, ROW + 2]);
        set_value(text, at, &new.to_string());
    }
}

/// A row has one line more, of which its count tells or not.
fn longer_row(dice: &mut Dice, text: &mut Vec<u8>, is_told: bool) {
    let (count, line) = dice.one_of(&ROWS);
    if let Some(at) = any_line(dice, text, count) {
        let told = number_in(text, at) + u64::from(is_told);
        add_lines(text, at, line);
        set_value(text, at, &told.to_string());
    }
}

/// A row has nine lines and says so.
fn nine(dice: &mut Dice, text: &mut Vec<u8>, _: usize) {
    let (count, line) = dice.one_of(&ROWS);
    if let Some(at) = any_line(dice, text, count) {
        let lacking = (ROW + 1).saturating_sub(number_in(text, at));
        add_lines(text, at, &line.repeat(lacking as usize));
        set_value(text, at, &(ROW + 1).to_string());
    }
}

/// Puts lines behind the line of this byte.
fn add_lines(text: &mut Vec<u8>, at: usize, lines: &str) {
    let behind = (line_at(text, at).end + 1).min(text.len());
    replace(text, behind..behind, lines.as_bytes());
}
