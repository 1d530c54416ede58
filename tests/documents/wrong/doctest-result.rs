// wrong: ParseIntError
//! ```
//! let number: u32 = "a".parse()?;
//! assert_eq!(number, 1);
//! # Ok::<(), std::num::ParseIntError>(())
//! ```
