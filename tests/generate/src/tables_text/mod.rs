//! The text of tables [rule 16]: written and read in the plainest way, and ways to damage it.
mod damage;
mod form;
mod records;
mod slow;

pub use damage::all as damages;
pub use form::Due;
pub use slow::{read, write, Bad, Reason};
