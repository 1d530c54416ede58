// wrong: assertion
//! The hidden line is run too:
//! ```
//! # assert_eq!(1, 2);
//! let one = 1;
//! ```
