//! Ways to damage a text of lines `key=value`, whatever it is of. Each is done at a byte of it: to that byte, to the number it belongs to or to
//! its line. What comes of it may be a good text again.
mod bytes;
pub mod edit;
mod lines;
mod values;

pub use bytes::{noise, random};
pub use lines::set_key;
pub use values::{set_number, set_value};

use crate::Dice;

/// Changes a text that has a byte at this place.
pub type Act = fn(&mut Dice, &mut Vec<u8>, usize);

/// Its name, and what it does.
pub type Damage = (&'static str, Act);

/// The damages that can be done to any such text.
pub static ANY: [Damage; 21] = [
    ("byte dropped", bytes::drop),
    ("byte doubled", bytes::double),
    ("byte changed", bytes::change),
    ("bit changed", bytes::change_bit),
    ("byte inserted", bytes::insert),
    ("NUL inserted", bytes::insert_nul),
    ("cut", bytes::cut),
    ("bytes behind", bytes::behind),
    ("lines swapped", lines::swap),
    ("line doubled", lines::double),
    ("line dropped", lines::drop),
    ("blank line", lines::blank),
    ("CR LF in a line", lines::cr),
    ("CR LF in all", lines::cr_in_all),
    ("no equals sign", lines::no_equals),
    ("other case", lines::other_case),
    ("space", lines::space),
    ("leading zeros", values::leading_zeros),
    ("large number", values::large),
    ("no number", values::no_number),
    ("sign", values::sign),
];

/// One damage here, and one somewhere if there is anything left.
pub fn two(dice: &mut Dice, damages: &[Damage], text: &mut Vec<u8>, at: usize) {
    dice.one_of(damages).1(dice, text, at);
    if !text.is_empty() {
        let elsewhere = dice.below(text.len() as u32) as usize;
        dice.one_of(damages).1(dice, text, elsewhere);
    }
}
