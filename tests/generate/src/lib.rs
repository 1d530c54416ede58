//! Tables, requests and texts to try desks with. Everything follows from the seed of the dice, so that any run can be repeated. Nothing here
//! asks a desk: whether the tables are what they are meant to be is for the tests to see.
mod damage;
mod dice;
pub mod full;
mod good;
pub mod layout;
mod levels;
pub mod longest;
mod request;
mod s1;
pub mod tables_text;
pub mod text;
pub mod view;

pub use damage::{damage, random_words};
pub use dice::{dice_for, Dice};
pub use good::tables;
pub use request::{request, request_for};
pub use s1::{s1, s1_unmarked, MARKED};
