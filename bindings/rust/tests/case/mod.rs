//! Case state S1 [rule 13], and short ways to name its users and entities.
#![allow(dead_code)] // each test takes what it needs
use mms::{Entity, Level, Reference, Roles, Tables, User};

#[path = "../../examples/make.rs"]
mod make;

pub fn user(number: u32) -> User {
    User::from_number(number).expect("1 to 16")
}

pub fn entity(number: u32) -> Entity {
    Entity::from_number(number).expect("1 to 64")
}

pub fn level(number: u32) -> Level {
    Level::from_number(number).expect("0 to 1,023")
}

pub fn roles(number: u32) -> Roles {
    Roles::from_number(number).expect("0 to 255")
}

pub fn reference(text: &str) -> Reference {
    text.parse().expect("names with dots")
}

/// S1, made by the typed writers.
pub fn s1() -> Tables {
    make::s1().expect("its numbers are in their ranges")
}
