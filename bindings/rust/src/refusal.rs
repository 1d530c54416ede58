//! The refusals: why a call did not do what it was asked [rule 7].
use crate::words::Answer;
use std::{error::Error, fmt};

/// Why a call refused: one of the eighteen rungs of the ladder. The lowest that applies is given [rule 7.0].
///
/// 0 is no refusal and has no `Refusal`; calls that are accepted give `Ok`.
///
/// ```
/// use mms::Refusal;
///
/// fn main() {
///     let refusal = Refusal::from_number(9, 0).unwrap();
///     assert_eq!(refusal, Refusal::Marked);
///     assert_eq!(refusal.number(), 9);
///     assert_eq!(refusal.to_string(), "a marked container on the way is above the requester's clearance");
///     assert_eq!(Refusal::from_number(17, 5), Some(Refusal::TooShort { need: 5 }));
///     assert_eq!(Refusal::from_number(0, 0), None);
/// }
/// ```
#[derive(Clone, Copy, Debug, PartialEq, Eq, Hash, PartialOrd, Ord)]
pub enum Refusal {
    /// 1: tables or a request of another length, or too few places for answers.
    BadLength,
    /// 2: the tables are not well-formed [rule 3].
    NotWellFormed,
    /// 3: the tables are not secure [rule 4].
    NotSecure,
    /// 4: who asks is no present user.
    UnknownRequester,
    /// 5: no such operation, or words that it does not take.
    BadRequest,
    /// 6: the requester is logged off.
    NotLoggedOn,
    /// 7: a reference leads nowhere.
    NoSuchName,
    /// 8: an operand has no triple that permits this.
    NoAccess,
    /// 9: a marked container on the way is above the requester's clearance.
    Marked,
    /// 10: an operand is of the wrong kind or type.
    WrongKind,
    /// 11: the user that the request speaks of is absent, or logged off and to have roles.
    NoSuchUser,
    /// 12: the requester lacks a role.
    RoleMissing,
    /// 13: a level or a set of roles stands in the way.
    LevelOrRoles,
    /// 14: there is no room.
    NoRoom,
    /// 15: the arrangement does not allow it.
    Arrangement,
    /// 16: the acknowledgement is not of what is held.
    NotAcknowledged,
    /// 17: the room lent for output is too short.
    TooShort {
        /// What there would have to be room for, in entries of a list or in bytes of a text.
        need: u32,
    },
    /// 18: a text is no request, or not one of tables.
    NotARequest(
        /// Where it fails.
        BadLine,
    ),
}

impl Refusal {
    /// The refusal of this number. `with` is what goes with it: the need with 17, the line with 18; with the others it
    /// counts for nothing. `None` for a number that is no refusal, and for 18 with line 0.
    pub const fn from_number(number: u32, with: u32) -> Option<Refusal> {
        Some(match number {
            1 => Refusal::BadLength,
            2 => Refusal::NotWellFormed,
            3 => Refusal::NotSecure,
            4 => Refusal::UnknownRequester,
            5 => Refusal::BadRequest,
            6 => Refusal::NotLoggedOn,
            7 => Refusal::NoSuchName,
            8 => Refusal::NoAccess,
            9 => Refusal::Marked,
            10 => Refusal::WrongKind,
            11 => Refusal::NoSuchUser,
            12 => Refusal::RoleMissing,
            13 => Refusal::LevelOrRoles,
            14 => Refusal::NoRoom,
            15 => Refusal::Arrangement,
            16 => Refusal::NotAcknowledged,
            17 => Refusal::TooShort { need: with },
            18 => match BadLine::from_number(with) {
                Some(line) => Refusal::NotARequest(line),
                None => return None,
            },
            _ => return None,
        })
    }

    /// Its number, 1 to 18.
    pub const fn number(self) -> u32 {
        match self {
            Refusal::BadLength => 1,
            Refusal::NotWellFormed => 2,
            Refusal::NotSecure => 3,
            Refusal::UnknownRequester => 4,
            Refusal::BadRequest => 5,
            Refusal::NotLoggedOn => 6,
            Refusal::NoSuchName => 7,
            Refusal::NoAccess => 8,
            Refusal::Marked => 9,
            Refusal::WrongKind => 10,
            Refusal::NoSuchUser => 11,
            Refusal::RoleMissing => 12,
            Refusal::LevelOrRoles => 13,
            Refusal::NoRoom => 14,
            Refusal::Arrangement => 15,
            Refusal::NotAcknowledged => 16,
            Refusal::TooShort { .. } => 17,
            Refusal::NotARequest(_) => 18,
        }
    }

    /// What happened, in words; of 17 and 18 without the number that goes with them.
    const fn reason(self) -> &'static str {
        match self {
            Refusal::BadLength => "the tables are not 2,304 words, a request is not 16, or there are too few places",
            Refusal::NotWellFormed => "the tables are not well-formed",
            Refusal::NotSecure => "the tables are not secure",
            Refusal::UnknownRequester => "the requester is no present user",
            Refusal::BadRequest => "the request is no operation, or has words that its operation does not take",
            Refusal::NotLoggedOn => "the requester is logged off",
            Refusal::NoSuchName => "a reference leads nowhere",
            Refusal::NoAccess => "no triple of an operand permits this",
            Refusal::Marked => "a marked container on the way is above the requester's clearance",
            Refusal::WrongKind => "an operand is of the wrong kind or type",
            Refusal::NoSuchUser => "the user spoken of is absent, or is logged off and can have no roles",
            Refusal::RoleMissing => "the requester lacks the role for it",
            Refusal::LevelOrRoles => "a level or a set of roles stands in the way",
            Refusal::NoRoom => "there is no room",
            Refusal::Arrangement => "the arrangement does not allow it",
            Refusal::NotAcknowledged => "this is not the refusal that is held, or not how many were missed",
            Refusal::TooShort { .. } => "the room for the output is too short",
            Refusal::NotARequest(_) => "a line of the text is bad or missing",
        }
    }
}

impl fmt::Display for Refusal {
    fn fmt(&self, f: &mut fmt::Formatter<'_>) -> fmt::Result {
        match self {
            Refusal::TooShort { need } => write!(f, "{}: {} needed", self.reason(), need),
            Refusal::NotARequest(line) => line.fmt(f),
            _ => f.write_str(self.reason()),
        }
    }
}

impl Error for Refusal {}

/// Where a text fails to be a request or to be one of tables: its first line that is bad or missing, counted from 1
/// [rules 11.4, 16.3].
///
/// A line is missing where the text ends before it, and then it is one more than the last. A request has seven lines,
/// and what follows them is a bad line 8. Where lines of tables are good and too many, the first that is too much is
/// bad.
///
/// ```
/// use mms::Request;
///
/// fn main() {
///     let refused = Request::from_text(b"user=2\nop=ten\n").unwrap_err();
///     assert_eq!(refused.line(), 2);
///     assert_eq!(refused.to_string(), "line 2 of the text is bad or missing");
/// }
/// ```
#[derive(Clone, Copy, Debug, PartialEq, Eq, Hash, PartialOrd, Ord)]
pub struct BadLine(u32);

impl BadLine {
    /// The line of this number; `None` for 0, since the first is 1.
    pub const fn from_number(line: u32) -> Option<BadLine> {
        if line >= 1 {
            Some(BadLine(line))
        } else {
            None
        }
    }

    /// The line, from 1 on.
    pub const fn line(self) -> u32 {
        self.0
    }
}

impl fmt::Display for BadLine {
    fn fmt(&self, f: &mut fmt::Formatter<'_>) -> fmt::Result {
        write!(f, "line {} of the text is bad or missing", self.0)
    }
}

impl Error for BadLine {}

impl From<BadLine> for Refusal {
    fn from(line: BadLine) -> Refusal {
        Refusal::NotARequest(line)
    }
}

impl Answer {
    /// The refusal that the answer is; `None` for 0, and for a pair that no call answers.
    ///
    /// ```
    /// use mms::{words, Refusal};
    ///
    /// fn main() {
    ///     assert_eq!(words::check(&[0; 2304]).refusal(), None);
    ///     assert_eq!(words::check(&[]).refusal(), Some(Refusal::BadLength));
    /// }
    /// ```
    pub const fn refusal(self) -> Option<Refusal> {
        Refusal::from_number(self.no, self.number)
    }

    /// With 0 the number that goes with it, else the refusal. The answer must be a call's own.
    pub(crate) fn result(self) -> Result<u32, Refusal> {
        match self.no {
            0 => Ok(self.number),
            _ => Err(self.refusal().expect("a call answers 0 to 18, and with 18 a line")),
        }
    }
}
