//! Where each word stands, so that a position is written once. Sizes are public; positions are for this crate.

/// Words of the tables [rule 2.1].
pub const TABLE_WORDS: usize = USERS * USER_WORDS + ENTITIES * ENTITY_WORDS;
/// Words of a request [rule 5.1].
pub const REQUEST_WORDS: usize = 16;
/// Words of an entry of a list: a length and four names [rule 10.4].
pub const ENTRY_WORDS: usize = 1 + NAMES;
/// Bytes of tables in a file, four for each word, the lowest first [rule 12.1].
pub const STATE_BYTES: usize = TABLE_WORDS * WORD_BYTES;
/// Bytes of the longest request text [rule 11.2].
pub const TEXT_MOST: usize = 166;
/// Bytes of the longest text of tables [rule 16.7].
pub const TABLES_TEXT_MOST: usize = 17_721;

/// Users that the tables have records for.
pub(crate) const USERS: usize = 16;
/// Words of a user's record.
pub(crate) const USER_WORDS: usize = 16;
/// Entities that the tables have records for.
pub(crate) const ENTITIES: usize = 64;
/// Words of an entity's record.
pub(crate) const ENTITY_WORDS: usize = 32;
/// Names that a reference has at most.
pub(crate) const NAMES: usize = 4;
/// Places of an entity, and triples of an entity.
pub(crate) const ROW: usize = 8;
/// Bytes of a word.
pub(crate) const WORD_BYTES: usize = 4;
/// The number of a notice goes no higher [rule 3.21].
pub(crate) const MISSED_MOST: u32 = 65_535;

/// A user's words [rule 2.2].
pub(crate) mod user {
    pub const PRESENT: usize = 0;
    pub const CLEARANCE: usize = 1;
    pub const AUTHORISED: usize = 2;
    pub const CURRENT: usize = 3;
    pub const DEVICE: usize = 4;
    pub const HELD: usize = 5;
    pub const HELD_OPERATION: usize = 6;
    pub const MISSED: usize = 7;
}

/// An entity's words [rule 2.3].
pub(crate) mod entity {
    pub const KIND: usize = 0;
    pub const TYPE: usize = 1;
    pub const LEVEL: usize = 2;
    pub const MARK: usize = 3;
    pub const VALUE: usize = 4;
    pub const RELEASER: usize = 5;
    pub const MAXIMUM: usize = 6;
    pub const USED: usize = 7;
    pub const CONTENTS: usize = 8;
    pub const SHOWN: usize = 16;
    pub const TRIPLES: usize = 24;
}

/// A request's words [rule 5.1].
pub(crate) mod request {
    pub const USER: usize = 0;
    pub const OPERATION: usize = 1;
    pub const FIRST: usize = 2;
    pub const SECOND: usize = 7;
    pub const ARGUMENTS: usize = 12;
    pub const SPARE: usize = 15;
}
