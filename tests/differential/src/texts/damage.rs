//! Ways to damage a request text: those of any text, and those of its keys and references.

use generate::text::{noise, random, set_key, set_value, two, Damage, ANY};
use generate::Dice;

/// Random texts are up to some twice as long as the longest that can be read.
const RANDOM_MOST: u32 = 350;

const KEYS: [&str; 15] =
    ["user", "op", "ref", "ref2", "a", "b", "c", "ref1", "ref3", "", "us", "users", "d", "=", "ref2=ref"];

/// Two of these are references all the same.
const MANY_NAMES: [&str; 8] = [
    "1.2.3.4.5",
    "1.2.3.4.",
    "1.2.3.4.5.6.7.8",
    "4294967295.4294967295.4294967295.4294967295.0",
    "1.2.3.4",
    "0.0.0.0.0",
    "0.0.0.0",
    "1.2.3.4.x",
];

/// The last of these is a reference all the same.
const EMPTY_NAMES: [&str; 12] =
    ["1..2", ".1", "1.", ".", "..", "...", "1.2..", "1...2", ".1.2.3", "1.2.3.", "1..2.3", ""];

/// The damages that only a request text can have.
static OWN: [Damage; 3] = [("other key", other_key), ("many names", many_names), ("empty name", empty_name)];

/// Those that leave nothing for a second one, or are two.
static WHOLE: [Damage; 4] = [
    ("untouched", |_, _, _| ()),
    ("noise", |dice, text, at| noise(dice, b"user=op=ref=ref2=a=b=c=\n\n\n\n\n\n\n0123456789.", text, at)),
    ("random bytes", |dice, text, _| random(dice, RANDOM_MOST, text)),
    ("two damages", |dice, text, at| two(dice, &[&ANY[..], &OWN].concat(), text, at)),
];

/// Every damage.
pub fn all() -> impl Iterator<Item = &'static Damage> {
    WHOLE.iter().chain(&ANY).chain(&OWN)
}

/// The line has the key of another, or one that no line has.
fn other_key(dice: &mut Dice, text: &mut Vec<u8>, at: usize) {
    set_key(text, at, dice.one_of(&KEYS));
}

/// The value has four names or more.
fn many_names(dice: &mut Dice, text: &mut Vec<u8>, at: usize) {
    set_value(text, at, dice.one_of(&MANY_NAMES));
}

/// The value has a name without digits.
fn empty_name(dice: &mut Dice, text: &mut Vec<u8>, at: usize) {
    set_value(text, at, dice.one_of(&EMPTY_NAMES));
}
