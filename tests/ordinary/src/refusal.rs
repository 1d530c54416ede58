//! The rungs of the ladder by name, and the pair that every call gives.

/// An answer, and the number that goes with it: a count, a need or a line, and 0 where none is due.
#[derive(Clone, Copy, Debug, PartialEq, Eq)]
pub struct Reply {
    pub answer: u32,
    pub number: u32,
}

/// Why something is refused; the number is the rung.
#[derive(Clone, Copy, Debug, PartialEq, Eq)]
#[repr(u32)]
pub enum Refusal {
    BadLength = 1,
    NotWellFormed = 2,
    NotSecure = 3,
    UnknownRequester = 4,
    BadRequest = 5,
    NotLoggedOn = 6,
    NoSuchName = 7,
    NoAccess = 8,
    Marked = 9,
    WrongKind = 10,
    NoSuchUser = 11,
    RoleMissing = 12,
    LevelOrRoles = 13,
    NoRoom = 14,
    Arrangement = 15,
    NotAcknowledged = 16,
    TooShort = 17,
    NotARequest = 18,
}

impl Refusal {
    /// Refuses unless the condition holds.
    #[inline]
    pub fn unless(self, holds: bool) -> Result<(), Refusal> {
        if holds {
            Ok(())
        } else {
            Err(self)
        }
    }

    /// The refusal with a number of its own: the need of 17 or the line of 18.
    #[inline]
    pub fn with(self, number: u32) -> Reply {
        Reply { answer: self as u32, number }
    }
}

impl Reply {
    /// 0 with its number, or a refusal with the number 0.
    #[inline]
    pub fn to(outcome: Result<u32, Refusal>) -> Reply {
        match outcome {
            Ok(number) => Reply { answer: 0, number },
            Err(refusal) => refusal.with(0),
        }
    }
}
