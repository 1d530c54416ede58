//! Full tables: all 64 entities present, containers in containers to a depth of five and more, sixteen users on sixteen devices, eight shown
//! on each, eight triples everywhere.
use crate::layout::{
    at_most, entity, entity_base, kind, op, role, shown, triple, user, user_base, COMPARTMENT_BITS, ENTITIES,
    FIRST_ROLE, LEVEL_MOST, PLACES, ROLES_MOST, TABLE_WORDS, TRIPLES, USERS, WHO_MOST,
};
use crate::view::entity_record;
use crate::{levels, Dice};

/// No tables give a longer list. Say D devices show something and N = 64 - D entities are left. An entity is in one container at most, so at
/// most one reference of each length leads to it through containers alone; and there is one with nothing above it, one with a single thing
/// above it, one with two. That makes N + (N - 1) + (N - 2) + (N - 3) entries. A device shows eight at most, an entity is in one of these at
/// most, and in something in one of these at most: 8 + (N - 1) + (N - 2) entries more for each device. The sum grows with D up to sixteen, and
/// no more devices than there are users show anything.
pub const ENTRIES_MOST: u32 = 16 * (8 + 47 + 46) + 48 + 47 + 46 + 45;

/// The first few each stand in the one before.
const CHAIN: usize = 5;
/// The last few are so low that anybody may see them.
const LOWEST: usize = 10;
/// In the fullest tables: so many hold something.
const HOLDERS: usize = 8;
/// In the fullest tables: a chain of three; the last of it holds the next eight, five of which hold all that come behind.
const TRUNK: usize = 3;
const FIRST_LEAF: usize = TRUNK + PLACES as usize;
/// The levels of rank 2 start here, and those of rank 3 have this bit too.
const RANK_2: u32 = 2 << COMPARTMENT_BITS;
/// How often a holder is looked for.
const TRIES: u32 = 20;

/// Full tables under construction. Numbers are given out by chance, so that neither kinds nor holders stand in any order in the tables.
struct Full<'a> {
    dice: &'a mut Dice,
    tables: Vec<u32>,
    devices: Vec<u32>,
    /// Objects and containers, holders before what they hold.
    inner: Vec<u32>,
}

impl<'a> Full<'a> {
    /// Numbers given out, and tables that are still empty.
    fn new(dice: &'a mut Dice) -> Full<'a> {
        let mut devices: Vec<u32> = (1..=ENTITIES).collect();
        dice.shuffle(&mut devices);
        let inner = devices.split_off(USERS as usize);
        Full { dice, tables: vec![0; TABLE_WORDS], devices, inner }
    }

    /// The words of an entity, to be written.
    fn entity(&mut self, number: u32) -> &mut [u32] {
        &mut self.tables[entity_base(number)..]
    }

    /// Puts an entity last into another.
    fn put_into(&mut self, holder: u32, number: u32) {
        let record = self.entity(holder);
        record[entity::CONTENTS + record[entity::USED] as usize] = number;
        record[entity::USED] += 1;
    }

    /// Shows the value and the label of an entity, last on a device.
    fn put_on_screen(&mut self, device: u32, number: u32) {
        let record = self.entity(device);
        record[entity::SHOWN + record[entity::USED] as usize] = shown::VALUE | shown::LABEL;
        self.put_into(device, number);
    }

    /// Logs a user on to the device that is meant for that user; gives the device's number.
    fn log_on(&mut self, number: u32, clearance: u32, roles: u32, level: u32) -> u32 {
        let device = self.devices[number as usize - 1];
        let record = &mut self.tables[user_base(number)..];
        record[user::PRESENT] = 1;
        record[user::CLEARANCE] = clearance;
        record[user::AUTHORISED] = roles;
        record[user::CURRENT] = roles;
        record[user::DEVICE] = device;
        let record = self.entity(device);
        record[entity::KIND] = kind::DEVICE;
        record[entity::LEVEL] = level;
        record[entity::MAXIMUM] = LEVEL_MOST;
        device
    }

    /// A level of rank 2 or 3.
    fn high_level(&mut self) -> u32 {
        if self.dice.chance(50) {
            LEVEL_MOST
        } else {
            RANK_2 | (self.dice.word() & LEVEL_MOST)
        }
    }

    /// A holder for the next entity.
    fn choose_holder(&mut self, made: usize) -> Option<u32> {
        if made < CHAIN {
            return made.checked_sub(1).map(|before| self.inner[before]);
        }
        (0..TRIES).map(|_| self.inner[self.dice.below(made as u32) as usize]).find(|&number| {
            let record = entity_record(&self.tables, number);
            record[entity::KIND] == kind::CONTAINER && record[entity::USED] < PLACES
        })
    }

    /// Makes the next object or container, in one before it if there is room.
    fn make_inner(&mut self, made: usize) {
        let number = self.inner[made];
        let is_container = made < CHAIN || self.dice.chance(50);
        let marked = is_container && self.dice.chance(25);
        let mut level = LEVEL_MOST;
        if let Some(holder) = self.choose_holder(made) {
            level = entity_record(&self.tables, holder)[entity::LEVEL];
            self.put_into(holder, number);
        }
        if self.dice.chance(70) {
            level = levels::lower(self.dice, level);
        }
        let is_lowest = made + LOWEST >= self.inner.len();
        let record = self.entity(number);
        record[entity::KIND] = if is_container { kind::CONTAINER } else { kind::OBJECT };
        record[entity::MARK] = u32::from(marked);
        record[entity::LEVEL] = if is_lowest { 0 } else { level };
    }

    /// Logs a user on and fills the screen.
    fn make_user(&mut self, number: u32) {
        let (clearance, screen) = (self.high_level(), self.high_level());
        let roles = self.dice.word() & ROLES_MOST;
        let device = self.log_on(number, clearance, roles, screen);
        let mut order = self.inner.clone();
        self.dice.shuffle(&mut order);
        order.retain(|&number| {
            let level = entity_record(&self.tables, number)[entity::LEVEL];
            at_most(level, clearance) && at_most(level, screen)
        });
        for &number in order.iter().take(PLACES as usize) {
            self.put_on_screen(device, number);
        }
    }

    /// Eight triples, each for somebody else, and most of them to show.
    fn make_triples(&mut self, number: u32) {
        let mut who: Vec<u32> = (1..=WHO_MOST).collect();
        self.dice.shuffle(&mut who);
        for (i, &who) in who.iter().take(TRIPLES as usize).enumerate() {
            let operation = if self.dice.chance(70) { op::SHOW } else { op::EDIT };
            self.entity(number)[entity::TRIPLES + i] = triple(who, operation, 1);
        }
    }

    /// In the fullest tables, where the entity made as so many-th goes.
    fn holder_in_fullest(&self, made: usize) -> Option<u32> {
        match made {
            0 => None,
            _ if made < TRUNK => Some(self.inner[made - 1]),
            _ if made < FIRST_LEAF => Some(self.inner[TRUNK - 1]),
            _ => Some(self.inner[TRUNK + (made - FIRST_LEAF) / PLACES as usize]),
        }
    }

    /// In the fullest tables, makes the next object or container, in its holder.
    fn make_inner_of_fullest(&mut self, made: usize) {
        let number = self.inner[made];
        let holds = made < HOLDERS;
        let record = self.entity(number);
        record[entity::KIND] = if holds { kind::CONTAINER } else { kind::OBJECT };
        record[entity::MARK] = u32::from(holds);
        record[entity::LEVEL] = LEVEL_MOST;
        if let Some(holder) = self.holder_in_fullest(made) {
            self.put_into(holder, number);
        }
    }

    /// In the fullest tables, logs a user on and shows every holder.
    fn make_user_of_fullest(&mut self, number: u32) {
        let device = self.log_on(number, LEVEL_MOST, role::OFFICER, LEVEL_MOST);
        for i in 0..HOLDERS {
            self.put_on_screen(device, self.inner[i]);
        }
    }

    /// In the fullest tables, seven triples that are of no use to a list, and then the one that counts.
    fn make_triples_of_fullest(&mut self, number: u32) {
        let mut triples: Vec<u32> = (1..TRIPLES).map(|who| triple(who, op::EDIT, 1)).collect();
        triples.push(triple(FIRST_ROLE, op::SHOW, 1));
        self.entity(number)[entity::TRIPLES..][..triples.len()].copy_from_slice(&triples);
    }
}

/// Levels, marks, places and triples as the dice fall: the lists are long.
pub fn full(dice: &mut Dice) -> Vec<u32> {
    let mut full = Full::new(dice);
    (0..full.inner.len()).for_each(|made| full.make_inner(made));
    (1..=USERS).for_each(|number| full.make_user(number));
    (1..=ENTITIES).for_each(|number| full.make_triples(number));
    full.tables
}

/// The list of every user has `ENTRIES_MOST` entries: eight hold something, and they are on every screen, so every bound is met that the number
/// is counted with. All containers are marked, and nobody's clearance is too low for that. The triple that counts comes last.
pub fn fullest(dice: &mut Dice) -> Vec<u32> {
    let mut full = Full::new(dice);
    (0..full.inner.len()).for_each(|made| full.make_inner_of_fullest(made));
    (1..=USERS).for_each(|number| full.make_user_of_fullest(number));
    (1..=ENTITIES).for_each(|number| full.make_triples_of_fullest(number));
    full.tables
}
