//! Where each word stands in the tables and in a request, and what the numbers in them mean.

pub const TABLE_WORDS: usize = 2304;
pub const REQUEST_WORDS: usize = 16;
pub const ENTRY_WORDS: usize = 5;

pub const USERS: u32 = 16;
pub const ENTITIES: u32 = 64;
pub const USER_WORDS: usize = 16;
pub const ENTITY_WORDS: usize = 32;
/// The entities stand behind all users.
pub const FIRST_ENTITY_WORD: usize = USERS as usize * USER_WORDS;

/// Places of an entity, and triples it can hold.
pub const PLACES: usize = 8;
/// Names of the longest reference.
pub const NAMES: usize = 4;

pub const KIND_MOST: u32 = kind::DEVICE;
pub const LEVEL_MOST: u32 = 1023;
pub const ROLES_MOST: u32 = 255;
pub const OPERATION_MOST: u32 = 20;
pub const POSITION_MOST: u32 = 2;
/// Users and then roles: whom a triple can name.
pub const WHO_MOST: u32 = USERS + ROLES;
pub const ROLES: u32 = 8;
/// The number of a notice goes no higher.
pub const MISSED_MOST: u32 = 65_535;
/// What is shown of an entity is a sum, of all three at most.
pub const SUM_MOST: u32 = shown::VALUE + shown::LABEL + shown::ID;

pub type Tables = [u32; TABLE_WORDS];
pub type Request = [u32; REQUEST_WORDS];
pub type UserWords = [u32; USER_WORDS];
pub type EntityWords = [u32; ENTITY_WORDS];

/// Words of a user's record.
pub mod user {
    pub const PRESENT: usize = 0;
    pub const CLEARANCE: usize = 1;
    pub const AUTHORISED: usize = 2;
    pub const CURRENT: usize = 3;
    pub const DEVICE: usize = 4;
    pub const HELD: usize = 5;
    pub const HELD_OPERATION: usize = 6;
    pub const MISSED: usize = 7;
    pub const SPARE: usize = 8;
}

/// Words of an entity's record.
pub mod entity {
    use super::PLACES;
    use std::ops::Range;

    pub const KIND: usize = 0;
    pub const TYPE: usize = 1;
    pub const LEVEL: usize = 2;
    pub const MARK: usize = 3;
    pub const VALUE: usize = 4;
    pub const RELEASER: usize = 5;
    pub const MAXIMUM: usize = 6;
    pub const USED: usize = 7;
    pub const CONTENTS: Range<usize> = 8..8 + PLACES;
    pub const SHOWN: Range<usize> = 16..16 + PLACES;
    pub const TRIPLES: Range<usize> = 24..24 + PLACES;
}

/// Words of a request.
pub mod request {
    pub const USER: usize = 0;
    pub const OPERATION: usize = 1;
    pub const FIRST: usize = 2;
    pub const SECOND: usize = 7;
    /// Where each reference starts: its length, and after that its names.
    pub const REFERENCES: [usize; 2] = [FIRST, SECOND];
    pub const A: usize = 12;
    pub const B: usize = 13;
    pub const C: usize = 14;
    pub const SPARE: usize = 15;
}

/// Kinds of entities.
pub mod kind {
    pub const ABSENT: u32 = 0;
    pub const OBJECT: u32 = 1;
    pub const CONTAINER: u32 = 2;
    pub const DEVICE: u32 = 3;
}

/// Types of containers; all other entities are plain.
pub mod types {
    pub const PLAIN: u32 = 0;
    pub const DRAFT: u32 = 1;
    pub const RELEASED: u32 = 2;
}

/// What a create makes.
pub mod sort {
    pub const OBJECT: u32 = 1;
    pub const CONTAINER: u32 = 2;
    pub const DRAFT: u32 = 3;
}

/// What a device shows of an entity.
pub mod shown {
    pub const VALUE: u32 = 1;
    pub const LABEL: u32 = 2;
    pub const ID: u32 = 4;
}

/// Roles that the desk itself asks for.
pub mod role {
    pub const OFFICER: u32 = 1;
    pub const DOWNGRADER: u32 = 2;
    pub const RELEASER: u32 = 4;
}

/// Operations.
pub mod op {
    pub const CREATE: u32 = 1;
    pub const DELETE: u32 = 2;
    pub const MOVE: u32 = 3;
    pub const EDIT: u32 = 4;
    pub const COPY: u32 = 5;
    pub const SET_LEVEL: u32 = 6;
    pub const SET_MARK: u32 = 7;
    pub const GRANT: u32 = 8;
    pub const REVOKE: u32 = 9;
    pub const SHOW: u32 = 10;
    pub const CLEAR: u32 = 11;
    pub const LOGIN: u32 = 12;
    pub const LOGOUT: u32 = 13;
    pub const CURRENT_ROLES: u32 = 14;
    pub const CLEARANCE: u32 = 15;
    pub const AUTHORISED_ROLES: u32 = 16;
    pub const MAXIMUM: u32 = 17;
    pub const DEVICE_LEVEL: u32 = 18;
    pub const RELEASE: u32 = 19;
    pub const ACKNOWLEDGE: u32 = 20;
}
