//! The disclosure list: every reference that a user could show [section 10 of the rules].

use crate::access::Whos;
use crate::effects::may_look;
use crate::form::Operand;
use crate::level::Level;
use crate::reference;
use crate::refusal::{Refusal, Reply};
use crate::set::EntitySet;
use crate::tables::*;
use crate::words::*;
use crate::Rules;

/// What a user could show, and through what the user may reach it.
pub struct Disclosure<'a> {
    tables: &'a Tables,
    /// The entities that the user could show, apart from the way to them.
    showable: EntitySet,
    /// The entities whose places a reference may go into.
    open: EntitySet,
    /// By names left and entity, the entries among the references that start there.
    entries: [[u32; ENTITIES as usize]; NAMES + 1],
}

type Entries<'a> = std::slice::ChunksExactMut<'a, u32>;

impl<'a> Disclosure<'a> {
    /// Looks at each entity once by itself, and then counts what can be reached from it.
    pub fn new<R: Rules>(tables: &'a Tables, user: User, device: Entity) -> Disclosure<'a> {
        let none = EntitySet::default();
        let entries = [[0; ENTITIES as usize]; NAMES + 1];
        let mut disclosure = Disclosure { tables, showable: none, open: none, entries };
        let viewer = Viewer::new::<R>(tables, user, device);
        for entity in Entity::all() {
            let words = entity_words(tables, entity);
            if viewer.could_show::<R>(words, entity) {
                disclosure.showable.insert(entity);
            }
            if viewer.may_pass::<R>(words) {
                disclosure.open.insert(entity);
            }
        }
        (1..=NAMES).for_each(|left| disclosure.count(left));
        disclosure
    }

    /// Counts, by entity, the entries with at most that many names, from those with one name fewer.
    fn count(&mut self, left: usize) {
        for entity in Entity::all() {
            let mut entries = u32::from(self.showable.holds(entity));
            if self.open.holds(entity) {
                let below = &self.entries[left - 1];
                let held = contents(entity_words(self.tables, entity));
                entries += held.map(|held| below[held.index()]).sum::<u32>();
            }
            self.entries[left][entity.index()] = entries;
        }
    }

    /// Writes the entries into the room, if they all fit there.
    pub fn write<R: Rules>(&self, room: &mut [u32]) -> Reply {
        let count = self.entries[NAMES].iter().sum::<u32>() + u32::from(R::COUNT);
        let suffices = room.len() / ENTRY_WORDS >= count as usize;
        if suffices || R::EARLY {
            let mut entries = room.chunks_exact_mut(ENTRY_WORDS);
            let mut names = [0; NAMES];
            for entity in Entity::all() {
                names[0] = entity.number();
                self.visit::<R>(entity, 1, &mut names, &mut entries);
            }
        }
        if suffices {
            Reply::to(Ok(count))
        } else {
            Refusal::TooShort.with(count)
        }
    }

    /// Writes the entry of the reference that has come to an entity, and then those that go on from there.
    ///
    /// The names behind the length are 0 when it starts, and again when it ends.
    fn visit<R: Rules>(&self, entity: Entity, length: usize, names: &mut [u32; NAMES], room: &mut Entries) {
        let left = NAMES + 1 - length;
        if self.entries[left][entity.index()] == 0 {
            return;
        }
        if self.showable.holds(entity) {
            if let Some(entry) = room.next() {
                entry[0] = length as u32;
                entry[1..].copy_from_slice(names);
            }
        }
        if length == NAMES || !self.open.holds(entity) {
            return;
        }
        for (held, place) in contents(entity_words(self.tables, entity)).zip(1..) {
            names[length] = place;
            self.visit::<R>(held, length + 1, names, room);
        }
        if !R::ZEROS {
            names[length] = 0;
        }
    }
}

/// The user for whom the list is, and the device it would be shown on.
struct Viewer<'a> {
    whos: Whos,
    clearance: Level,
    screen: &'a EntityWords,
}

impl<'a> Viewer<'a> {
    /// Gathers what is asked of every entity, so that it is looked up once.
    fn new<R: Rules>(tables: &'a Tables, user: User, device: Entity) -> Viewer<'a> {
        Viewer {
            whos: Whos::of::<R>(tables, user),
            clearance: clearance_of(tables, user),
            screen: entity_words(tables, device),
        }
    }

    /// Whether show would answer 0 or 14 for the entity, if the way to it is open [rule 10.3].
    fn could_show<R: Rules>(&self, words: &EntityWords, entity: Entity) -> bool {
        let (level, device) = (Level(words[entity::LEVEL]), Level(self.screen[entity::LEVEL]));
        Operand::Entity.accepts(words)
            && self.whos.allowed(words, op::SHOW, 1)
            && may_look::<R>(level, self.clearance, device)
            && !(R::SCREEN && is_full(self.screen) && !holds(self.screen, entity))
            && !((R::NAMED || R::MARK) && reference::bars::<R>(words, self.clearance))
    }

    /// Whether a reference may go through the entity.
    fn may_pass<R: Rules>(&self, words: &EntityWords) -> bool {
        let forgotten = R::DEVICES && is_screen(words[entity::KIND]);
        let barred = !(R::NAMED || R::MARK) && reference::bars::<R>(words, self.clearance);
        !forgotten && !barred
    }
}
