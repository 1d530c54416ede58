//! Whether well-formed tables are secure [section 4 of the rules].

use crate::access;
use crate::level::Level;
use crate::tables::*;
use crate::words::*;
use crate::Rules;

/// Nothing stands above what holds it or above who looks at it, and nobody has a role without being authorised.
pub fn holds<R: Rules>(tables: &Tables) -> bool {
    User::all().all(|user| user_is_secure::<R>(tables, user))
        && Entity::all().all(|entity| entity_is_secure::<R>(tables, entity_words(tables, entity)))
}

/// Current roles are authorised, and the user is cleared for all that the own device shows [rules 4.2, 4.4].
fn user_is_secure<R: Rules>(tables: &Tables, user: User) -> bool {
    let words = user_words(tables, user);
    access::is_within(words[user::CURRENT], words[user::AUTHORISED])
        && screen_is_at_most::<R>(tables, user, Level(words[user::CLEARANCE]))
}

/// Contents are at most the holder's level; a screen is at most its maximum, and shows no value without the label
/// [rules 4.1, 4.3, 4.5].
fn entity_is_secure<R: Rules>(tables: &Tables, words: &EntityWords) -> bool {
    let level = Level(words[entity::LEVEL]);
    contents_are_at_most::<R>(tables, words, level)
        && (!is_screen(words[entity::KIND])
            || level.at_most::<R>(Level(words[entity::MAXIMUM]))
                && words[entity::SHOWN].iter().all(|sum| value_has_label(*sum)))
}

/// All that a user's device shows is at most that level; so it is where the user is logged off.
pub fn screen_is_at_most<R: Rules>(tables: &Tables, user: User, level: Level) -> bool {
    device_of(tables, user)
        .map_or(true, |device| contents_are_at_most::<R>(tables, entity_words(tables, device), level))
}

/// All that stands in the places is at most that level.
pub fn contents_are_at_most<R: Rules>(tables: &Tables, words: &EntityWords, level: Level) -> bool {
    contents(words).all(|held| level_of(tables, held).at_most::<R>(level))
}

/// A shown sum that has the value has the label too.
pub fn value_has_label(sum: u32) -> bool {
    sum & shown::VALUE == 0 || sum & shown::LABEL != 0
}
