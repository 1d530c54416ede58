//! Every case of case state S1, built from its words.

mod common;

use common::*;
use generate::layout::op::{COPY, CREATE, CURRENT_ROLES, LOGIN, RELEASE, SET_LEVEL, SHOW};
use generate::layout::{entity, request, NAMES};
use generate::{s1, s1_unmarked};
use ordinary::{advance, check, list, read, script, step, write, Reply, Right, ENTRY_WORDS, REQUEST_WORDS};

/// The answer to a request; `advance` must agree, and the tables must be in order afterwards.
fn answer(tables: &mut Tables, request: &[u32]) -> u32 {
    let mut advanced = tables.clone();
    let reply = step::<Right>(tables, request);
    assert_eq!(reply.number, 0);
    assert_eq!(advance::<Right>(&mut advanced, request), reply.answer);
    assert_eq!(&advanced, tables);
    assert_eq!(check::<Right>(tables), accepted(0));
    reply.answer
}

#[test]
fn the_state_is_well_formed_and_secure() {
    assert_eq!(check::<Right>(&s1()), accepted(0));
}

#[test]
fn user_2_shows() {
    let cases: [(&[u32], u32, u32); 4] = [(&[5], 3, 0), (&[4, 1], 3, 9), (&[5], 1, 15), (&[5, 1], 3, 7)];
    for (names, sum, expected) in cases {
        assert_eq!(answer(&mut s1(), &show(2, names, sum)), expected, "show {:?}", names);
    }
    let mut shown = s1();
    answer(&mut shown, &show(2, &[5], VALUE_AND_LABEL));
    let screen = [entity::USED, entity::CONTENTS, entity::SHOWN].map(|word| entity_word(&shown, 2, word));
    assert_eq!(screen, [1, 5, VALUE_AND_LABEL]);
}

#[test]
fn a_length_of_five_is_no_form() {
    let mut tables = s1();
    let mut long = show(2, &[5], VALUE_AND_LABEL);
    long[request::FIRST] = NAMES + 1;
    assert_eq!(answer(&mut tables, &long), 5);
    assert_eq!(notice(&tables, 2), [5, SHOW, 1]);
}

#[test]
fn user_2_copies_5_to_7() {
    let mut tables = s1();
    assert_eq!(answer(&mut tables, &request(2, COPY, &[5], &[7], [0; 3])), 0);
    assert_eq!(entity_word(&tables, 7, entity::VALUE), 40);
}

#[test]
fn user_2_creates_in_7() {
    let mut tables = s1();
    assert_eq!(answer(&mut tables, &request(2, CREATE, &[7], &[], [1, 257, 0])), 13);
    let mut tables = s1();
    assert_eq!(answer(&mut tables, &request(2, CREATE, &[7], &[], [1, 0, 0])), 0);
    let mut expected = s1();
    set_entity(&mut expected, 7, &[2, 0, 256], &[8], &[(2, 5, 2), (2, 1, 1), (1, 6, 1)]);
    set_entity(&mut expected, 8, &[1], &[], &[(2, 5, 2), (2, 1, 1), (1, 6, 1)]);
    assert_eq!(tables, expected);
}

#[test]
fn user_1_releases_6_as_a_releaser_only() {
    let release = request(1, RELEASE, &[6], &[], [0; 3]);
    assert_eq!(answer(&mut s1(), &release), 12);
    let mut tables = s1();
    assert_eq!(answer(&mut tables, &request(1, CURRENT_ROLES, &[], &[], [1, 5, 0])), 0);
    assert_eq!(answer(&mut tables, &release), 0);
    let released = [entity::TYPE, entity::RELEASER].map(|word| entity_word(&tables, 6, word));
    assert_eq!(released, [2, 1]);
}

#[test]
fn user_1_drops_the_level_of_7_as_a_downgrader_only() {
    // Strictly lower, and sideways.
    for level in [0, 1] {
        let set_level = request(1, SET_LEVEL, &[7], &[], [level, 0, 0]);
        let mut tables = s1();
        assert_eq!(answer(&mut tables, &set_level), 12, "to {}", level);
        assert_eq!((notice(&tables, 1), entity_word(&tables, 7, entity::LEVEL)), ([12, SET_LEVEL, 1], 256));
        assert_eq!(answer(&mut tables, &request(1, CURRENT_ROLES, &[], &[], [1, 2, 0])), 0);
        assert_eq!(answer(&mut tables, &set_level), 0, "to {}", level);
        assert_eq!((notice(&tables, 1), entity_word(&tables, 7, entity::LEVEL)), ([12, SET_LEVEL, 1], level));
    }
}

#[test]
fn user_3_is_logged_off_and_user_9_is_absent() {
    assert_eq!(answer(&mut s1(), &show(3, &[5], VALUE_AND_LABEL)), 6);
    assert_eq!(answer(&mut s1(), &request(3, LOGIN, &[3], &[], [0; 3])), 0);
    let mut tables = s1();
    assert_eq!(answer(&mut tables, &show(9, &[5], VALUE_AND_LABEL)), 4);
    assert_eq!(tables, s1());
}

#[test]
fn the_first_refusal_is_held_until_it_is_acknowledged() {
    let mut tables = s1();
    assert_eq!(answer(&mut tables, &show(2, &[4, 1], VALUE_AND_LABEL)), 9);
    assert_eq!(answer(&mut tables, &show(2, &[5], 1)), 15);
    assert_eq!(notice(&tables, 2), [9, SHOW, 2]);
    assert_eq!(answer(&mut tables, &acknowledge(2, 9, 1)), 16);
    assert_eq!(answer(&mut tables, &acknowledge(2, 9, 3)), 0);
    assert_eq!(tables, s1());
}

/// The entries of the list, which must fit exactly and be refused in one word less.
fn listed(tables: &Tables, user: u32, count: usize) -> Vec<u32> {
    const UNTOUCHED: u32 = 77;
    let mut room = vec![UNTOUCHED; count * ENTRY_WORDS];
    assert_eq!(list::<Right>(tables, user, &mut room), accepted(count as u32));
    if let Some(words) = room.len().checked_sub(1) {
        let mut short = vec![UNTOUCHED; words];
        assert_eq!(list::<Right>(tables, user, &mut short), Reply { answer: 17, number: count as u32 });
        assert!(short.iter().all(|word| *word == UNTOUCHED));
    }
    room
}

#[test]
fn the_lists() {
    assert_eq!(listed(&s1(), 2, 1), [1, 5, 0, 0, 0]);
    assert_eq!(listed(&s1(), 1, 0), []);
    assert_eq!(listed(&s1_unmarked(), 2, 2), [2, 4, 1, 0, 0, 1, 5, 0, 0, 0]);
}

/// The text of a request, which must be read as it was.
fn text(request: &[u32]) -> Vec<u8> {
    let mut room = [0; 200];
    let reply = write::<Right>(request, &mut room);
    assert_eq!(reply.answer, 0);
    let text = &room[..reply.number as usize];
    let mut words = [77; REQUEST_WORDS];
    assert_eq!(read::<Right>(text, &mut words), accepted(0));
    assert_eq!(words, request);
    text.to_vec()
}

#[test]
fn the_script() {
    let state: Vec<u8> = s1().iter().flat_map(|word| word.to_le_bytes()).collect();
    let first = text(&show(2, &[4, 1], VALUE_AND_LABEL));
    assert_eq!(first, b"user=2\nop=10\nref=4.1\nref2=\na=3\nb=0\nc=0\n");
    let both = [first, text(&show(2, &[5], VALUE_AND_LABEL))].concat();
    let output = script::<Right>(&state, &both);
    assert_eq!(output, b"answer=9\nheld=9\nmissed=1\nanswer=0\nheld=9\nmissed=1\n");
}
