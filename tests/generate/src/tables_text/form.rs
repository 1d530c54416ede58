//! The lines of the text, each by what it tells.

/// Keys of a user's lines behind the number, for words 1 to 7 [rule 16.1].
const OF_USER: [&str; 7] = ["clearance", "authorised", "current", "device", "held", "operation", "missed"];
/// Keys of an entity's lines behind the number, for words 0 to 7 [rule 16.2].
const OF_ENTITY: [&str; 8] = ["kind", "type", "level", "mark", "value", "releaser", "maximum", "places"];

/// What a line tells that is due.
#[derive(Clone, Copy, Debug, PartialEq, Eq)]
pub enum Due {
    /// The number of a user. An entity may come instead, or the end.
    User,
    /// A word of the user, from 0 on by its line.
    OfUser(usize),
    /// The number of an entity. The end may come instead.
    Entity,
    /// A word of the entity, from 0 on by its line.
    OfEntity(usize),
    Content,
    Triples,
    Triple,
}

impl Due {
    /// The kind of an entity, and how many places it uses: the two words that not any number can stand for.
    pub const KIND: Due = Due::OfEntity(0);
    pub const PLACES: Due = Due::OfEntity(OF_ENTITY.len() - 1);
    /// Its level and its value.
    pub const LEVEL: Due = Due::OfEntity(2);
    pub const VALUE: Due = Due::OfEntity(4);

    /// Every one, in the order of their lines.
    pub fn all() -> Vec<Due> {
        let mut all = vec![Due::User];
        all.extend((0..OF_USER.len()).map(Due::OfUser));
        all.push(Due::Entity);
        all.extend((0..OF_ENTITY.len()).map(Due::OfEntity));
        all.extend([Due::Content, Due::Triples, Due::Triple]);
        all
    }

    /// The key of its line.
    pub fn key(self) -> &'static str {
        match self {
            Due::User => "user",
            Due::OfUser(line) => OF_USER[line],
            Due::Entity => "entity",
            Due::OfEntity(line) => OF_ENTITY[line],
            Due::Content => "content",
            Due::Triples => "triples",
            Due::Triple => "triple",
        }
    }

    /// How many numbers its line has.
    pub fn parts(self) -> usize {
        match self {
            Due::Content => 2,
            Due::Triple => 3,
            _ => 1,
        }
    }

    /// May the text end here?
    pub fn may_end(self) -> bool {
        matches!(self, Due::User | Due::Entity)
    }

    /// What is due behind a word of a user.
    pub fn behind_user_word(line: usize) -> Due {
        if line + 1 < OF_USER.len() {
            Due::OfUser(line + 1)
        } else {
            Due::User
        }
    }
}
