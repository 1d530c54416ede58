//! What each operation takes, and whether a request has that form: rung 5 [rules 5.4, 7.5].

use crate::refusal::Refusal;
use crate::tables::{is_screen, is_terminal};
use crate::words::*;

/// What an operand must be [rule 5.5].
#[derive(Clone, Copy, PartialEq, Eq)]
pub enum Operand {
    Any,
    /// An object or a container.
    Entity,
    Container,
    Draft,
    Screen,
    Terminal,
}

impl Operand {
    /// Whether a present entity is of that kind and type.
    #[inline]
    pub fn accepts(self, words: &EntityWords) -> bool {
        let kind = words[entity::KIND];
        match self {
            Operand::Any => true,
            Operand::Entity => kind == kind::OBJECT || kind == kind::CONTAINER,
            Operand::Container => kind == kind::CONTAINER,
            Operand::Draft => kind == kind::CONTAINER && words[entity::TYPE] == types::DRAFT,
            Operand::Screen => is_screen(kind),
            Operand::Terminal => is_terminal(kind),
        }
    }
}

/// The least and the most that an argument can be.
#[derive(Clone, Copy)]
struct Span(u32, u32);

/// What an operation takes.
pub struct Form {
    pub operands: [Option<Operand>; 2],
    arguments: [Span; 3],
}

const UNUSED: Span = Span(0, 0);
const FREE: Span = Span(0, u32::MAX);
const SORT: Span = Span(sort::OBJECT, sort::DRAFT);
const LEVEL: Span = Span(0, LEVEL_MOST);
const FLAG: Span = Span(0, 1);
const WHO: Span = Span(1, WHO_MOST);
const OPERATION: Span = Span(1, OPERATION_MOST);
const POSITION: Span = Span(1, POSITION_MOST);
const SUM: Span = Span(1, SUM_MOST);
const USER: Span = Span(1, USERS);
const ROLE_SET: Span = Span(0, ROLES_MOST);

/// The forms of operations 1 to 20 in their order.
static FORMS: [Form; OPERATION_MOST as usize] = [
    one(Operand::Container, [SORT, LEVEL, UNUSED]),  // create
    one(Operand::Entity, [UNUSED; 3]),               // delete
    two(Operand::Entity, Operand::Container),        // move
    one(Operand::Entity, [FREE, UNUSED, UNUSED]),    // edit
    two(Operand::Entity, Operand::Entity),           // copy
    one(Operand::Entity, [LEVEL, UNUSED, UNUSED]),   // level
    one(Operand::Container, [FLAG, UNUSED, UNUSED]), // mark
    one(Operand::Any, [WHO, OPERATION, POSITION]),   // grant
    one(Operand::Any, [WHO, OPERATION, POSITION]),   // revoke
    one(Operand::Entity, [SUM, UNUSED, UNUSED]),     // show
    none([UNUSED; 3]),                               // clear
    one(Operand::Terminal, [UNUSED; 3]),             // login
    none([UNUSED; 3]),                               // logout
    none([USER, ROLE_SET, UNUSED]),                  // current roles
    none([USER, LEVEL, UNUSED]),                     // clearance
    none([USER, ROLE_SET, UNUSED]),                  // authorised roles
    one(Operand::Screen, [LEVEL, UNUSED, UNUSED]),   // maximum
    one(Operand::Screen, [LEVEL, UNUSED, UNUSED]),   // device level
    one(Operand::Draft, [UNUSED; 3]),                // release
    none([FREE, FREE, UNUSED]),                      // acknowledge
];

/// The form of an operation that names no entity.
const fn none(arguments: [Span; 3]) -> Form {
    Form { operands: [None, None], arguments }
}

/// The form of an operation on one entity.
const fn one(operand: Operand, arguments: [Span; 3]) -> Form {
    Form { operands: [Some(operand), None], arguments }
}

/// The form of an operation on two entities; no such operation has arguments.
const fn two(first: Operand, second: Operand) -> Form {
    Form { operands: [Some(first), Some(second)], arguments: [UNUSED; 3] }
}

/// The form of the request's operation, if the request has that form.
pub fn of(request: &Request) -> Result<&'static Form, Refusal> {
    // 0 wraps to a number far beyond the last operation.
    let row = request[request::OPERATION].wrapping_sub(1) as usize;
    let form = FORMS.get(row).ok_or(Refusal::BadRequest)?;
    Refusal::BadRequest.unless(form.fits(request))?;
    Ok(form)
}

impl Form {
    /// Whether references, arguments and the spare word are as this operation wants them.
    fn fits(&self, request: &Request) -> bool {
        let arguments = &request[request::A..=request::C];
        self.operands
            .iter()
            .zip(request::REFERENCES)
            .all(|(operand, at)| reference_fits(request, at, operand.is_some()))
            && self.arguments.iter().zip(arguments).all(|(span, word)| span.0 <= *word && *word <= span.1)
            && request[request::SPARE] == 0
    }
}

/// A reference that is taken has one to four names, any other none; no name word behind its length is used.
fn reference_fits(request: &Request, at: usize, taken: bool) -> bool {
    let least = u32::from(taken);
    let most = if taken { NAMES as u32 } else { 0 };
    (least..=most).contains(&request[at]) && no_names_behind(request, at)
}

/// Whether a reference, which must have at most four names, is followed by zeros.
pub fn no_names_behind(request: &Request, at: usize) -> bool {
    let names = &request[at + 1..=at + NAMES];
    names[request[at] as usize..].iter().all(|name| *name == 0)
}
