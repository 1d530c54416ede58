//! Where things stand in the tables and in a request, and what their numbers mean [docs/RULES.md].

pub const USERS: u32 = 16;
pub const USER_WORDS: usize = 16;
pub const ENTITIES: u32 = 64;
pub const ENTITY_WORDS: usize = 32;
/// Where the entities start.
pub const FIRST_ENTITY_WORD: usize = USERS as usize * USER_WORDS;
pub const TABLE_WORDS: usize = FIRST_ENTITY_WORD + ENTITIES as usize * ENTITY_WORDS;
pub const REQUEST_WORDS: usize = 16;
pub const PLACES: u32 = 8;
pub const TRIPLES: u32 = 8;
pub const NAMES: u32 = 4;
/// A reference: its length, then its names.
pub const ENTRY_WORDS: usize = 1 + NAMES as usize;
pub const OPERATION_MOST: u32 = 20;
pub const KIND_MOST: u32 = kind::DEVICE;
pub const LEVEL_MOST: u32 = 1023;
/// The bits of a level's compartments; its rank stands above them.
pub const COMPARTMENT_BITS: u32 = 8;
pub const COMPARTMENTS: u32 = (1 << COMPARTMENT_BITS) - 1;
pub const ROLES_MOST: u32 = 255;
/// The number of a notice goes no higher.
pub const MISSED_MOST: u32 = 65_535;
/// What is shown of an entity is a sum, of all three at most.
pub const SUM_MOST: u32 = shown::VALUE + shown::LABEL + shown::ID;
/// The first "who" of a triple that is a role.
pub const FIRST_ROLE: u32 = USERS + 1;
pub const WHO_MOST: u32 = USERS + 8;
/// In the word of a triple, how far up its "who" and its operation stand.
const WHO_SHIFT: u32 = 16;
const OPERATION_SHIFT: u32 = 8;

/// The words of a user's notice, from what is held on.
pub const NOTICE_WORDS: usize = user::MISSED + 1 - user::HELD;

/// The words of a user.
pub mod user {
    pub const PRESENT: usize = 0;
    pub const CLEARANCE: usize = 1;
    pub const AUTHORISED: usize = 2;
    pub const CURRENT: usize = 3;
    pub const DEVICE: usize = 4;
    pub const HELD: usize = 5;
    pub const HELD_OPERATION: usize = 6;
    pub const MISSED: usize = 7;
    pub const SPARE: usize = 8;
}

/// The words of an entity.
pub mod entity {
    pub const KIND: usize = 0;
    pub const TYPE: usize = 1;
    pub const LEVEL: usize = 2;
    pub const MARK: usize = 3;
    pub const VALUE: usize = 4;
    pub const RELEASER: usize = 5;
    pub const MAXIMUM: usize = 6;
    pub const USED: usize = 7;
    pub const CONTENTS: usize = 8;
    pub const SHOWN: usize = 16;
    pub const TRIPLES: usize = 24;
}

/// The words of a request; each reference is its length, then its names.
pub mod request {
    pub const USER: usize = 0;
    pub const OPERATION: usize = 1;
    pub const FIRST: usize = 2;
    pub const SECOND: usize = 7;
    pub const A: usize = 12;
    pub const B: usize = 13;
    pub const C: usize = 14;
    pub const SPARE: usize = 15;
}

pub mod kind {
    pub const ABSENT: u32 = 0;
    pub const OBJECT: u32 = 1;
    pub const CONTAINER: u32 = 2;
    pub const DEVICE: u32 = 3;
}

pub mod types {
    pub const PLAIN: u32 = 0;
    pub const DRAFT: u32 = 1;
    pub const RELEASED: u32 = 2;
}

/// What a create makes.
pub mod sort {
    pub const OBJECT: u32 = 1;
    pub const CONTAINER: u32 = 2;
    pub const DRAFT: u32 = 3;
}

pub mod role {
    pub const OFFICER: u32 = 1;
    pub const DOWNGRADER: u32 = 2;
    pub const RELEASER: u32 = 4;
}

pub mod shown {
    pub const VALUE: u32 = 1;
    pub const LABEL: u32 = 2;
    pub const ID: u32 = 4;
}

pub mod op {
    pub const CREATE: u32 = 1;
    pub const DELETE: u32 = 2;
    pub const MOVE: u32 = 3;
    pub const EDIT: u32 = 4;
    pub const COPY: u32 = 5;
    pub const SET_LEVEL: u32 = 6;
    pub const SET_MARK: u32 = 7;
    pub const GRANT: u32 = 8;
    pub const REVOKE: u32 = 9;
    pub const SHOW: u32 = 10;
    pub const CLEAR: u32 = 11;
    pub const LOGIN: u32 = 12;
    pub const LOGOUT: u32 = 13;
    pub const CURRENT_ROLES: u32 = 14;
    pub const CLEARANCE: u32 = 15;
    pub const AUTHORISED_ROLES: u32 = 16;
    pub const MAXIMUM: u32 = 17;
    pub const DEVICE_LEVEL: u32 = 18;
    pub const RELEASE: u32 = 19;
    pub const ACKNOWLEDGE: u32 = 20;
}

/// The refusals by their numbers, and 0 for none.
pub mod refusal {
    pub const ACCEPTED: u32 = 0;
    pub const BAD_LENGTH: u32 = 1;
    pub const NOT_WELL_FORMED: u32 = 2;
    pub const NOT_SECURE: u32 = 3;
    pub const UNKNOWN_REQUESTER: u32 = 4;
    pub const BAD_REQUEST: u32 = 5;
    pub const NOT_LOGGED_ON: u32 = 6;
    pub const NO_SUCH_NAME: u32 = 7;
    pub const NO_ACCESS: u32 = 8;
    pub const MARKED: u32 = 9;
    pub const WRONG_KIND: u32 = 10;
    pub const NO_SUCH_USER: u32 = 11;
    pub const ROLE_MISSING: u32 = 12;
    pub const LEVEL_OR_ROLES: u32 = 13;
    pub const NO_ROOM: u32 = 14;
    pub const ARRANGEMENT: u32 = 15;
    pub const NOT_ACKNOWLEDGED: u32 = 16;
    pub const TOO_SHORT: u32 = 17;
    pub const NOT_A_REQUEST: u32 = 18;
}

/// The last refusal that a step gives.
pub const STEP_MOST: u32 = refusal::NOT_ACKNOWLEDGED;

/// The first word of a user, who is numbered from 1.
pub const fn user_base(number: u32) -> usize {
    (number as usize - 1) * USER_WORDS
}

/// The first word of an entity, which is numbered from 1.
pub const fn entity_base(number: u32) -> usize {
    FIRST_ENTITY_WORD + (number as usize - 1) * ENTITY_WORDS
}

/// An access triple as it stands in its word.
pub const fn triple(who: u32, operation: u32, position: u32) -> u32 {
    who << WHO_SHIFT | right(operation, position)
}

/// The word of a triple without its "who": for what it is, and not for whom.
pub const fn right(operation: u32, position: u32) -> u32 {
    operation << OPERATION_SHIFT | position
}

/// The "who" of a triple.
pub const fn who_of(triple: u32) -> u32 {
    triple >> WHO_SHIFT
}

/// A triple without its "who".
pub const fn right_of(triple: u32) -> u32 {
    triple & ((1 << WHO_SHIFT) - 1)
}

/// The "who", the operation and the position of a triple.
pub const fn parts_of(triple: u32) -> [u32; 3] {
    let right = right_of(triple);
    [who_of(triple), right >> OPERATION_SHIFT, right & ((1 << OPERATION_SHIFT) - 1)]
}

/// Is a level at most another: its rank, and its compartments all among the other's?
pub fn at_most(a: u32, b: u32) -> bool {
    a >> COMPARTMENT_BITS <= b >> COMPARTMENT_BITS && a & !b & COMPARTMENTS == 0
}
