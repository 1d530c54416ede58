//! Whether any 2,304 words are well-formed tables [section 3 of the rules].

use crate::access;
use crate::refusal::Refusal;
use crate::set::EntitySet;
use crate::tables::*;
use crate::words::*;
use std::ops::RangeInclusive;

/// The first and the last refusal that can be held.
const HELD: RangeInclusive<u32> = Refusal::BadRequest as u32..=Refusal::NotAcknowledged as u32;

/// Well-formed: each record by itself, and all of them together.
pub fn holds(tables: &Tables) -> bool {
    terminals_in_use(tables).map_or(false, |in_use| entities_fit(tables, in_use))
}

/// The terminals that users are on, or none if a user's record is at fault or two users are on one [rule 3.16].
fn terminals_in_use(tables: &Tables) -> Option<EntitySet> {
    let mut in_use = EntitySet::default();
    for user in User::all() {
        let words = user_words(tables, user);
        let device = Entity::new(words[user::DEVICE]);
        if !user_fits(words) || device.map_or(false, |device| !in_use.insert(device)) {
            return None;
        }
    }
    Some(in_use)
}

/// A user's record by itself [rules 3.1, 3.2, 3.17].
fn user_fits(words: &UserWords) -> bool {
    if words[user::PRESENT] == 0 {
        return all_zero(words);
    }
    words[user::PRESENT] == 1
        && words[user::CLEARANCE] <= LEVEL_MOST
        && words[user::AUTHORISED] <= ROLES_MOST
        && words[user::CURRENT] <= ROLES_MOST
        && words[user::DEVICE] <= ENTITIES
        && (words[user::DEVICE] != 0 || words[user::CURRENT] == 0)
        && notice_fits(words)
        && all_zero(&words[user::SPARE..])
}

/// Either nothing is held and nothing missed, or a refusal of the ladder with its operation [rules 3.19 to 3.21].
fn notice_fits(words: &UserWords) -> bool {
    let (held, operation, missed) = (words[user::HELD], words[user::HELD_OPERATION], words[user::MISSED]);
    if held == 0 {
        return operation == 0 && missed == 0;
    }
    HELD.contains(&held) && operation <= OPERATION_MOST && (1..=MISSED_MOST).contains(&missed)
}

/// All entities' records, each by itself and then what they say of each other and of the terminals in use.
fn entities_fit(tables: &Tables, in_use: EntitySet) -> bool {
    let mut census = Census::default();
    for entity in Entity::all() {
        let words = entity_words(tables, entity);
        let fits = if words[entity::KIND] == kind::ABSENT {
            all_zero(words)
        } else {
            fields_fit(words) && triples_fit(&words[entity::TRIPLES]) && census.admit(entity, words)
        };
        if !fits {
            return false;
        }
    }
    census.agrees(in_use)
}

/// The first eight words of a present entity [rules 3.3, 3.7 to 3.11].
fn fields_fit(words: &EntityWords) -> bool {
    let kind = words[entity::KIND];
    let (container, screen) = (kind == kind::CONTAINER, is_screen(kind));
    let released = words[entity::TYPE] == types::RELEASED;
    kind <= KIND_MOST
        && words[entity::TYPE] <= if container { types::RELEASED } else { types::PLAIN }
        && words[entity::LEVEL] <= LEVEL_MOST
        && words[entity::MARK] <= u32::from(container)
        && (!screen || words[entity::VALUE] == 0)
        && (words[entity::RELEASER] != 0) == released
        && words[entity::RELEASER] <= USERS
        && words[entity::MAXIMUM] <= if screen { LEVEL_MOST } else { 0 }
        && words[entity::USED] <= if kind == kind::OBJECT { 0 } else { PLACES as u32 }
}

/// Triples first and no two alike, zeros behind [rule 3.5].
fn triples_fit(words: &[u32]) -> bool {
    let end = words.iter().position(|word| *word == 0).unwrap_or(words.len());
    let (triples, rest) = words.split_at(end);
    all_zero(rest) && triples.iter().all(|triple| is_triple(*triple)) && all_differ(triples)
}

/// No word stands there twice. There are eight at most, so that comparing all with all is no matter.
fn all_differ(words: &[u32]) -> bool {
    (1..words.len()).all(|place| !words[..place].contains(&words[place]))
}

/// Who 1 to 24, operation 1 to 20, position 1 or 2 [rule 3.22].
fn is_triple(word: u32) -> bool {
    let [who, operation, position] = access::parts(word);
    (1..=WHO_MOST).contains(&who)
        && (1..=OPERATION_MOST).contains(&operation)
        && (1..=POSITION_MOST).contains(&position)
}

/// No bit set in any word. Without an early exit, since most records are absent and this way they go by quickly.
fn all_zero(words: &[u32]) -> bool {
    words.iter().fold(0, |bits, word| bits | word) == 0
}

/// What the entities say of each other, gathered in one pass.
struct Census {
    /// All that is no screen.
    entities: EntitySet,
    terminals: EntitySet,
    /// Terminals that show something.
    showing: EntitySet,
    /// All that stands in any place.
    placed: EntitySet,
    /// By entity, the container that it is in.
    containers: [Option<Entity>; ENTITIES as usize],
}

impl Default for Census {
    fn default() -> Census {
        let none = EntitySet::default();
        Census { entities: none, terminals: none, showing: none, placed: none, containers: [None; ENTITIES as usize] }
    }
}

impl Census {
    /// Takes in a present entity whose fields fit, and says whether its places do [rules 3.4, 3.12].
    fn admit(&mut self, entity: Entity, words: &EntityWords) -> bool {
        let used = words[entity::USED] as usize;
        let (contents, behind) = words[entity::CONTENTS].split_at(used);
        let (sums, sums_behind) = words[entity::SHOWN].split_at(used);
        if !all_zero(behind) || !all_zero(sums_behind) {
            return false;
        }
        if is_terminal(words[entity::KIND]) {
            self.terminals.insert(entity);
            if used > 0 {
                self.showing.insert(entity);
            }
        }
        if is_screen(words[entity::KIND]) {
            return self.shows(contents) && sums.iter().all(|sum| (1..=SUM_MOST).contains(sum));
        }
        self.entities.insert(entity);
        all_zero(sums) && contents.iter().all(|number| self.put(*number, entity))
    }

    /// Notes what stands in a container, unless it is no entity's number or stands in a container already [rule 3.13].
    fn put(&mut self, number: u32, container: Entity) -> bool {
        match Entity::new(number) {
            Some(entity) => {
                self.placed.insert(entity);
                self.containers[entity.index()].replace(container).is_none()
            }
            None => false,
        }
    }

    /// Notes what a screen shows, unless that has no entity's number or stands there twice.
    fn shows(&mut self, contents: &[u32]) -> bool {
        let mut here = EntitySet::default();
        let fits = contents.iter().all(|number| Entity::new(*number).map_or(false, |entity| here.insert(entity)));
        self.placed = self.placed.and(here);
        fits
    }

    /// What is placed is present and no screen, users are on terminals, of these only such as are in use show anything,
    /// and containers don't go round [rules 3.6, 3.14, 3.15, 3.18].
    fn agrees(&self, in_use: EntitySet) -> bool {
        self.placed.is_within(self.entities)
            && in_use.is_within(self.terminals)
            && self.showing.is_within(in_use)
            && self.none_inside_itself()
    }

    /// No container holds itself at any depth. What has been climbed through once is not climbed through again.
    fn none_inside_itself(&self) -> bool {
        let mut known = EntitySet::default();
        for entity in Entity::all() {
            match self.climb(entity, known) {
                Some(path) => known = known.and(path),
                None => return false,
            }
        }
        true
    }

    /// The way from an entity outwards as far as it is new, or none if it comes back to itself.
    fn climb(&self, entity: Entity, known: EntitySet) -> Option<EntitySet> {
        let mut path = EntitySet::default();
        let mut next = Some(entity);
        while let Some(at) = next.filter(|at| !known.holds(*at)) {
            if !path.insert(at) {
                return None;
            }
            next = self.containers[at.index()];
        }
        Some(path)
    }
}
