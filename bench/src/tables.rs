//! Tables for the check, for the writer and the reader of tables and for the list, with who asks for a list.
use crate::load::Load;
use generate::layout::{user, user_base, USERS};
use generate::longest::TABLES_TEXT_MOST;
use generate::Dice;
use ordinary::Right;

/// Checks of each tables, one after the other: a desk's own tables are asked again and again, and so stay in the caches.
const CHECKS_OF_EACH: usize = 4;
/// Lists of each tables; each is of one of the users who are on.
const LISTS_OF_EACH: usize = 4;
/// Of S1, which is alone in its load.
const CALLS_OF_ONE: usize = 200;
/// Whose list of S1 is asked for: the one that is not empty.
const ASKER_OF_S1: u32 = 2;

/// Makes tables.
pub type Maker = fn(&mut Dice) -> Vec<u32>;

/// Checks of S1 alone.
pub fn check_s1() -> Load {
    Load { tables: vec![generate::s1()], places: vec![0; CALLS_OF_ONE], ..Load::default() }
}

/// Checks of so many tables made by dice.
pub fn check(dice: &mut Dice, tables: usize, make: Maker) -> Load {
    let places = (0..tables).flat_map(|place| [place; CHECKS_OF_EACH]).collect();
    Load { tables: (0..tables).map(|_| make(dice)).collect(), places, ..Load::default() }
}

/// The same tables with their texts.
pub fn with_texts(load: Load) -> Load {
    Load { texts: load.tables.iter().map(|tables| text(tables)).collect(), ..load }
}

/// The text of tables.
fn text(tables: &[u32]) -> Vec<u8> {
    let mut room = vec![0; TABLES_TEXT_MOST];
    let reply = ordinary::write_tables::<Right>(tables, &mut room);
    room.truncate(reply.number as usize);
    room
}

/// Lists of S1 alone.
pub fn list_s1() -> Load {
    Load { users: vec![ASKER_OF_S1; CALLS_OF_ONE], ..check_s1() }
}

/// Who is logged on.
fn users_on(tables: &[u32]) -> Vec<u32> {
    (1..=USERS).filter(|&number| tables[user_base(number) + user::DEVICE] != 0).collect()
}

/// Lists of so many tables made by dice, for users who are on; tables with nobody on are left aside.
pub fn list(dice: &mut Dice, tables: usize, make: Maker) -> Load {
    let mut load = Load::default();
    while load.tables.len() < tables {
        let next = make(dice);
        let on = users_on(&next);
        if !on.is_empty() {
            load.places.extend([load.tables.len(); LISTS_OF_EACH]);
            load.users.extend((0..LISTS_OF_EACH).map(|_| dice.one_of(&on)));
            load.tables.push(next);
        }
    }
    load
}

#[cfg(test)]
mod tests {
    use super::*;
    use generate::longest::longest_text;

    /// Texts have the lengths that are printed with their figures.
    #[test]
    fn texts_are_as_long_as_they_are_said_to_be() {
        let longest = with_texts(check(&mut Dice::new(1), 3, longest_text));
        assert_eq!((longest.texts.len(), longest.places.len()), (3, 3 * CHECKS_OF_EACH));
        assert!(longest.texts.iter().all(|text| text.len() == TABLES_TEXT_MOST));
        assert_eq!(with_texts(check_s1()).texts.iter().map(Vec::len).collect::<Vec<_>>(), [987]);
    }
}
