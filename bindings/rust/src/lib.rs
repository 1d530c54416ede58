//! The message desk for Rust: safe calls to the proved archive.
//!
//! The desk keeps messages at different levels of secrecy. Its memory is [`Tables`]. A user sends a [`Request`] to
//! [`Tables::step`], which does it, or refuses it with a [`Refusal`] and keeps a [`Notice`] for the user;
//! [`Tables::run`] does as many as there are in one call, and [`Tables::list`] says what a user could be shown. Rules
//! are cited by their numbers in `docs/RULES.md`.
//!
//! ```
//! use mms::{Entity, Level, Refusal, Request, Roles, Tables, User};
//!
//! fn main() -> Result<(), Box<dyn std::error::Error>> {
//!     let (officer, clerk, device) = (User::try_from(1)?, User::try_from(2)?, Entity::try_from(1)?);
//!     let mut tables = Tables::empty();
//!     tables.put_device(device, Level::HIGHEST, Level::HIGHEST);
//!     tables.put_user(officer, Level::HIGHEST, Roles::OFFICER);
//!     tables.put_on(officer, device, Roles::OFFICER);
//!     tables.put_user(clerk, Level::LOWEST, Roles::NONE);
//!     tables.check()?;
//!
//!     let secret = Level::new(2, 0b1).ok_or("no such rank")?;
//!     tables.step(&Request::set_clearance(officer, clerk, secret))?;
//!     assert_eq!(tables.clearance_of(clerk), Some(secret));
//!
//!     // the clerk is logged off
//!     assert_eq!(tables.step(&Request::logout(clerk)), Err(Refusal::NotLoggedOn));
//!     Ok(())
//! }
//! ```
//!
//! Tables can be kept as words, with [`Tables::to_bytes`], or as lines that people read, with [`Tables::to_text`].
//!
//! What is proved is the archive behind [`words`]: its eight calls answer as the rules say, for any words and bytes.
//! The types here are ordinary Rust that hands words to those calls and takes them back. [`words`] is there for who has
//! slices of their own.
//!
//! No call keeps what it was lent, allocates inside the archive or has a state of its own, so different tables can be
//! used in different threads.
//!
//! The archive must be there before this crate is built: `bindings/build` builds both. It is x86-64 code for Linux.
#![warn(missing_docs)]
#![deny(unsafe_op_in_unsafe_fn)]
#![deny(unsafe_code)]

mod layout;
mod level;
mod numbered;
mod operation;
mod reference;
mod refusal;
mod request;
mod sets;
mod tables;
mod triple;
#[allow(unsafe_code)] // the one place where the archive is called, and requests are taken as their words
pub mod words;

pub use layout::{ENTRY_WORDS, REQUEST_WORDS, STATE_BYTES, TABLES_TEXT_MOST, TABLE_WORDS, TEXT_MOST};
pub use level::{Entity, Level, User};
pub use numbered::OutOfRange;
pub use operation::{Kind, Operation, Position, Sort, Type};
pub use reference::{NotAReference, Reference};
pub use refusal::{BadLine, Refusal};
pub use request::Request;
pub use sets::{Roles, Shown};
pub use tables::{Notice, Tables};
pub use triple::{Triple, Who};
