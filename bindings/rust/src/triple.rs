//! Access triples: who may do what to an entity.
use crate::numbered::numbered;
use crate::{Operation, Position, Roles, User};

numbered! {
    /// Whom a triple speaks of: 1 to 16 is that user, 17 to 24 everybody with a certain role among the current ones
    /// [rule 2.5].
    ///
    /// ```
    /// use mms::{Roles, User, Who};
    ///
    /// fn main() -> Result<(), mms::OutOfRange> {
    ///     assert_eq!(Who::from(User::try_from(2)?).number(), 2);
    ///     assert_eq!(Who::with_role(Roles::RELEASER).map(Who::number), Some(19));
    ///     assert_eq!(Who::with_role(Roles::OFFICER | Roles::RELEASER), None);
    ///     Ok(())
    /// }
    /// ```
    #[derive(Clone, Copy, Debug, PartialEq, Eq, Hash, PartialOrd, Ord)]
    Who, 1 to 24, "a who, 1 to 24"
}

/// The who of role 1; the others follow.
const FIRST_ROLE: u32 = 17;
/// In a triple's word the who stands above the operation, and the operation above the position.
const WHO: u32 = 65_536;
const OPERATION: u32 = 256;

impl Who {
    /// Everybody with this role; `None` for a set that is not one role.
    pub fn with_role(role: Roles) -> Option<Who> {
        let bits = role.number();
        if bits.is_power_of_two() {
            Some(Who(FIRST_ROLE + bits.trailing_zeros()))
        } else {
            None
        }
    }
}

impl From<User> for Who {
    fn from(user: User) -> Who {
        Who(user.number())
    }
}

/// Leave for somebody to do an operation to the entity that holds the triple, when it stands in this position.
///
/// ```
/// use mms::{Operation, Position, Triple, User};
///
/// fn main() -> Result<(), mms::OutOfRange> {
///     let triple = Triple::new(User::try_from(2)?, Operation::Show, Position::First);
///     assert_eq!(triple.word(), 2 * 65_536 + 10 * 256 + 1);
///     assert_eq!(Triple::from_word(triple.word()), Some(triple));
///     assert_eq!(Triple::from_word(0), None);
///     Ok(())
/// }
/// ```
#[derive(Clone, Copy, Debug, PartialEq, Eq, Hash, PartialOrd, Ord)]
pub struct Triple {
    /// Who may do it.
    pub who: Who,
    /// What may be done.
    pub operation: Operation,
    /// As which operand.
    pub position: Position,
}

impl Triple {
    /// The triple of these three; a user or a `Who` says who.
    pub fn new(who: impl Into<Who>, operation: Operation, position: Position) -> Triple {
        Triple { who: who.into(), operation, position }
    }

    /// The word that it is in a record.
    pub const fn word(self) -> u32 {
        self.who.number() * WHO + self.operation.number() * OPERATION + self.position.number()
    }

    /// The triple of a word; `None` for a word that well-formed tables do not have as a triple [rule 3.22].
    pub fn from_word(word: u32) -> Option<Triple> {
        Some(Triple {
            who: Who::from_number(word / WHO)?,
            operation: Operation::from_number(word % WHO / OPERATION)?,
            position: Position::from_number(word % OPERATION)?,
        })
    }
}
