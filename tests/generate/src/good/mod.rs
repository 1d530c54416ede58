//! Good tables: well-formed and secure, and different from one another in more than their numbers.
mod access;
mod inner;
mod people;

use crate::layout::{entity, entity_base, kind, ENTITIES, LEVEL_MOST, TABLE_WORDS, TRIPLES, USERS};
use crate::{levels, Dice};

/// Where the next entity goes: into the newest open container, into the oldest, or into any.
#[derive(Clone, Copy)]
enum Nesting {
    Deep,
    Full,
    Mixed,
}

/// What tables under construction are to be like. The choices are made once, so that tables differ from one another and not only within.
struct Plan<'a> {
    dice: &'a mut Dice,
    tables: Vec<u32>,
    devices: Vec<u32>,
    /// Objects and containers, holders first.
    inner: Vec<u32>,
    nesting: Nesting,
    /// In a hundred of the objects and containers.
    containers: u32,
    /// The bits that levels are made of: few of them make levels comparable.
    level_mask: u32,
    least_triples: u32,
    /// Who most triples are for, so that some fit.
    favourites: Vec<u32>,
}

/// How many entities: few, some, many, or so many that no number is left for one more.
fn choose_count(dice: &mut Dice) -> u32 {
    match dice.below(4) {
        0 => dice.between(2, 9),
        1 => dice.between(10, 34),
        2 => dice.between(35, 63),
        _ => ENTITIES,
    }
}

impl<'a> Plan<'a> {
    /// A plan, and tables that are still empty. Numbers are given out by chance, so that neither kinds nor holders stand in any order.
    fn new(dice: &'a mut Dice) -> Plan<'a> {
        let mut numbers: Vec<u32> = (1..=ENTITIES).collect();
        dice.shuffle(&mut numbers);
        let count = choose_count(dice);
        let most_devices = (count / 2).min(USERS);
        let devices = if dice.chance(3) { 0 } else { dice.between(1, most_devices) };
        let mut plan = Plan {
            tables: vec![0; TABLE_WORDS],
            devices: numbers[..devices as usize].to_vec(),
            inner: numbers[devices as usize..count as usize].to_vec(),
            nesting: dice.one_of(&[Nesting::Deep, Nesting::Full, Nesting::Mixed]),
            containers: dice.between(25, 84),
            level_mask: dice.one_of(&[0x3ff, 0x3ff, 0x303, 0x301, 0x300, 0x0ff, 0x000]),
            least_triples: 0,
            favourites: Vec::new(),
            dice,
        };
        plan.least_triples = if plan.dice.chance(25) { TRIPLES } else { plan.dice.below(TRIPLES) };
        plan
    }

    /// A level of the plan's kind.
    fn level(&mut self) -> u32 {
        self.dice.word() & self.level_mask & LEVEL_MOST
    }

    /// The words of an entity, to be written.
    fn entity(&mut self, number: u32) -> &mut [u32] {
        &mut self.tables[entity_base(number)..]
    }

    /// Makes a device, with its level at most its maximum.
    fn make_device(&mut self, number: u32) {
        let maximum = if self.dice.chance(50) { LEVEL_MOST } else { self.level() };
        let level = levels::lower(self.dice, maximum);
        let record = self.entity(number);
        record[entity::KIND] = kind::DEVICE;
        record[entity::MAXIMUM] = maximum;
        record[entity::LEVEL] = level;
    }

    /// Makes all devices.
    fn make_devices(&mut self) {
        for number in self.devices.clone() {
            self.make_device(number);
        }
    }
}

/// 2,304 words that are well-formed and secure.
pub fn tables(dice: &mut Dice) -> Vec<u32> {
    let mut plan = Plan::new(dice);
    plan.make_devices();
    plan.make_inner();
    plan.make_users();
    plan.make_screens();
    plan.choose_favourites();
    plan.make_triples();
    plan.tables
}
