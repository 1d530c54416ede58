//! Tables whose text is the longest there is.
use crate::layout::{
    entity, entity_base, kind, triple, types, user, user_base, ENTITIES, LEVEL_MOST, MISSED_MOST, OPERATION_MOST,
    PLACES, ROLES_MOST, STEP_MOST, TABLE_WORDS, USERS, WHO_MOST,
};
use crate::view::entity_record;
use crate::Dice;

/// No tables have a longer text. A user's number takes 6 bytes and its digits, 119 for all sixteen; with the most digits in every word a user has
/// 86 bytes more. Entities' numbers take 8 bytes and their digits, 631 for all. With eight triples and the most digits an entity has 171 bytes
/// whatever it is; a device has 32 more and 13 for each of eight shown, a released container 39 more, an object 38. In the containers stand all that
/// are no devices but one, since no container is inside itself; each takes 13 bytes. Devices that nobody is on show nothing, so sixteen devices
/// and 48 containers are best. Of the nine numbers of one digit one is that of the outermost container, which stands nowhere; each of the
/// others takes a byte from the user who is on it or from the place where it stands.
pub const TABLES_TEXT_MOST: usize = 119 + 16 * 86 + 631 + 16 * (171 + 32 + 8 * 13) + 48 * (171 + 39) + 47 * 13 - 8;

/// The least number of two digits, of three and of five.
const TWO: u32 = 10;
const THREE: u32 = 100;
const FIVE: u32 = 10_000;
/// The least number of ten digits, as many as a word can have.
const TEN: u32 = 1_000_000_000;
/// Compartments that a level of four digits can do without.
const SPARE_COMPARTMENTS: u32 = 1 | 2 | 4 | 16;
/// The sums that show no value without its label.
const LABELLED: [u32; 5] = [2, 3, 4, 6, 7];

/// Tables that are well-formed and secure, and whose text has `TABLES_TEXT_MOST` bytes. All else is as the dice fall.
pub fn longest_text(dice: &mut Dice) -> Vec<u32> {
    let mut tables = vec![0; TABLE_WORDS];
    let outermost = dice.between(1, TWO - 1);
    let mut numbers: Vec<u32> = (1..=ENTITIES).filter(|&number| number != outermost).collect();
    dice.shuffle(&mut numbers);
    let mut containers = numbers.split_off(USERS as usize);
    containers.insert(0, outermost);
    for made in 0..containers.len() {
        make_container(dice, &mut tables, &containers[..=made]);
    }
    for (number, device) in (1..=USERS).zip(numbers) {
        make_user(dice, &mut tables, number, device);
        make_screen(dice, &mut tables, device, &containers);
    }
    (1..=ENTITIES).for_each(|number| make_triples(dice, &mut tables, number));
    tables
}

/// Makes the last of these as a container that is released, in one of those before if there is any.
fn make_container(dice: &mut Dice, tables: &mut [u32], made: &[u32]) {
    let (number, before) = (made[made.len() - 1], &made[..made.len() - 1]);
    let mut level = LEVEL_MOST;
    let open = |&holder: &u32| entity_record(tables, holder)[entity::USED] < PLACES;
    let open: Vec<u32> = before.iter().copied().filter(open).collect();
    if !open.is_empty() {
        let record = &mut tables[entity_base(dice.one_of(&open))..];
        record[entity::CONTENTS + record[entity::USED] as usize] = number;
        record[entity::USED] += 1;
        level = record[entity::LEVEL] & !(dice.word() & SPARE_COMPARTMENTS);
    }
    let record = &mut tables[entity_base(number)..];
    record[entity::KIND] = kind::CONTAINER;
    record[entity::TYPE] = types::RELEASED;
    record[entity::LEVEL] = level;
    record[entity::MARK] = dice.below(2);
    record[entity::VALUE] = dice.between(TEN, u32::MAX);
    record[entity::RELEASER] = dice.between(TWO, USERS);
}

/// Makes a user who is on this device.
fn make_user(dice: &mut Dice, tables: &mut [u32], number: u32, device: u32) {
    let roles = dice.between(THREE, ROLES_MOST);
    let record = &mut tables[user_base(number)..];
    record[user::PRESENT] = 1;
    record[user::CLEARANCE] = LEVEL_MOST;
    record[user::AUTHORISED] = roles;
    record[user::CURRENT] = roles;
    record[user::DEVICE] = device;
    record[user::HELD] = dice.between(TWO, STEP_MOST);
    record[user::HELD_OPERATION] = dice.between(TWO, OPERATION_MOST);
    record[user::MISSED] = dice.between(FIVE, MISSED_MOST);
}

/// Makes a device that shows eight containers whose numbers have two digits.
fn make_screen(dice: &mut Dice, tables: &mut [u32], device: u32, containers: &[u32]) {
    let mut shown: Vec<u32> = containers.iter().copied().filter(|&number| number >= TWO).collect();
    dice.shuffle(&mut shown);
    let record = &mut tables[entity_base(device)..];
    record[entity::KIND] = kind::DEVICE;
    record[entity::LEVEL] = LEVEL_MOST;
    record[entity::MAXIMUM] = LEVEL_MOST;
    record[entity::USED] = PLACES;
    for place in 0..PLACES as usize {
        record[entity::CONTENTS + place] = shown[place];
        record[entity::SHOWN + place] = dice.one_of(&LABELLED);
    }
}

/// Makes eight triples of two digits, two digits and one, no two alike.
fn make_triples(dice: &mut Dice, tables: &mut [u32], number: u32) {
    let mut who: Vec<u32> = (TWO..=WHO_MOST).collect();
    dice.shuffle(&mut who);
    let triples = &mut tables[entity_base(number) + entity::TRIPLES..][..PLACES as usize];
    for (word, who) in triples.iter_mut().zip(who) {
        *word = triple(who, dice.between(TWO, OPERATION_MOST), dice.between(1, 2));
    }
}
