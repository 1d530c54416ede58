//! Case state S1, the small tables that document 01 gives its examples for.
use crate::layout::{entity, entity_base, kind, op, triple, types, user, user_base, TABLE_WORDS};

/// The container that S1 marks, with entity 5 in its first place.
pub const MARKED: u32 = 4;

/// Puts a user's record: present, with these words 1 to 4, nothing held.
fn put_user(tables: &mut [u32], number: u32, words: [u32; 4]) {
    let base = user_base(number);
    tables[base + user::PRESENT] = 1;
    tables[base + user::CLEARANCE..=base + user::DEVICE].copy_from_slice(&words);
}

/// Puts an entity's kind, level and triples, and gives its record for the rest.
fn put_entity<'a>(tables: &'a mut [u32], number: u32, kind: u32, level: u32, triples: &[u32]) -> &'a mut [u32] {
    let record = &mut tables[entity_base(number)..];
    record[entity::KIND] = kind;
    record[entity::LEVEL] = level;
    record[entity::TRIPLES..entity::TRIPLES + triples.len()].copy_from_slice(triples);
    record
}

/// The tables of case state S1.
pub fn s1() -> Vec<u32> {
    use op::{COPY, CREATE, LOGIN, RELEASE, SET_LEVEL, SHOW};
    let mut tables = vec![0; TABLE_WORDS];
    let t = &mut tables[..];
    put_user(t, 1, [1023, 7, 1, 1]);
    put_user(t, 2, [256, 0, 0, 2]);
    put_user(t, 3, [513, 6, 0, 0]);
    put_entity(t, 1, kind::DEVICE, 1023, &[])[entity::MAXIMUM] = 1023;
    put_entity(t, 2, kind::DEVICE, 512, &[])[entity::MAXIMUM] = 512;
    put_entity(t, 3, kind::DEVICE, 0, &[triple(3, LOGIN, 1)])[entity::MAXIMUM] = 1023;
    let marked = put_entity(t, MARKED, kind::CONTAINER, 513, &[]);
    marked[entity::MARK] = 1;
    marked[entity::USED] = 2;
    marked[entity::CONTENTS..entity::CONTENTS + 2].copy_from_slice(&[5, 6]);
    put_entity(t, 5, kind::OBJECT, 256, &[triple(2, SHOW, 1), triple(2, COPY, 1)])[entity::VALUE] = 40;
    let draft = put_entity(t, 6, kind::CONTAINER, 513, &[triple(1, RELEASE, 1)]);
    draft[entity::TYPE] = types::DRAFT;
    draft[entity::VALUE] = 41;
    put_entity(t, 7, kind::CONTAINER, 256, &[triple(2, COPY, 2), triple(2, CREATE, 1), triple(1, SET_LEVEL, 1)]);
    tables
}

/// S1 with the mark of its container taken away.
pub fn s1_unmarked() -> Vec<u32> {
    let mut tables = s1();
    tables[entity_base(MARKED) + entity::MARK] = 0;
    tables
}
