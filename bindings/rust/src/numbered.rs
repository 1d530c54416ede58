//! What the types that are numbers have in common: each is made from a number in its range, and from no other.
use std::{error::Error, fmt};

/// A number that is outside the range of the type it was to become.
///
/// ```
/// use mms::User;
///
/// fn main() {
///     let refused = User::try_from(17).unwrap_err();
///     assert_eq!(refused.number(), 17);
///     assert_eq!(refused.to_string(), "17 is not a user, 1 to 16");
/// }
/// ```
#[derive(Clone, Copy, Debug, PartialEq, Eq, Hash)]
pub struct OutOfRange {
    pub(crate) number: u32,
    pub(crate) wanted: &'static str,
}

impl OutOfRange {
    /// The number that was given.
    pub const fn number(self) -> u32 {
        self.number
    }
}

impl fmt::Display for OutOfRange {
    fn fmt(&self, f: &mut fmt::Formatter<'_>) -> fmt::Result {
        write!(f, "{} is not {}", self.number, self.wanted)
    }
}

impl Error for OutOfRange {}

/// The conversions from and to numbers, for a type that has `from_number` and `number`.
macro_rules! converted {
    ($name:ident, $wanted:literal) => {
        impl TryFrom<u32> for $name {
            type Error = $crate::OutOfRange;

            fn try_from(number: u32) -> Result<Self, Self::Error> {
                $name::from_number(number).ok_or($crate::OutOfRange { number, wanted: $wanted })
            }
        }

        impl From<$name> for u32 {
            fn from(one: $name) -> u32 {
                one.number()
            }
        }
    };
}

/// A type of the numbers from `least` to `most`.
macro_rules! numbered {
    ($(#[$about:meta])* $name:ident, $least:literal to $most:literal, $wanted:literal) => {
        $(#[$about])*
        pub struct $name(u32);

        impl $name {
            /// The one with this number; `None` where there is none.
            pub const fn from_number(number: u32) -> Option<Self> {
                #[allow(unused_comparisons)] // some begin with 0
                if number >= $least && number <= $most {
                    Some($name(number))
                } else {
                    None
                }
            }

            /// Its number.
            pub const fn number(self) -> u32 {
                self.0
            }

            /// All of them, in the order of their numbers.
            pub fn all() -> impl Iterator<Item = Self> {
                ($least..=$most).map($name)
            }
        }

        impl std::fmt::Display for $name {
            fn fmt(&self, f: &mut std::fmt::Formatter<'_>) -> std::fmt::Result {
                self.0.fmt(f)
            }
        }

        $crate::numbered::converted!($name, $wanted);
    };
}

/// A type of a few named things, each with its number.
macro_rules! named {
    ($(#[$about:meta])* $name:ident, $wanted:literal {
        $($(#[$each:meta])* $one:ident = $number:literal $word:literal,)+
    }) => {
        $(#[$about])*
        #[derive(Clone, Copy, Debug, PartialEq, Eq, Hash, PartialOrd, Ord)]
        pub enum $name {
            $($(#[$each])* $one = $number,)+
        }

        impl $name {
            /// All of them, in the order of their numbers.
            pub const ALL: &'static [$name] = &[$($name::$one,)+];

            /// The one with this number; `None` where there is none.
            pub const fn from_number(number: u32) -> Option<Self> {
                match number {
                    $($number => Some($name::$one),)+
                    _ => None,
                }
            }

            /// Its number.
            pub const fn number(self) -> u32 {
                self as u32
            }
        }

        impl std::fmt::Display for $name {
            fn fmt(&self, f: &mut std::fmt::Formatter<'_>) -> std::fmt::Result {
                f.pad(match self {
                    $($name::$one => $word,)+
                })
            }
        }

        $crate::numbered::converted!($name, $wanted);
    };
}

pub(crate) use {converted, named, numbered};
