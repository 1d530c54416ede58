//! Requests with something amiss: a name that leads nowhere, a word out of its range, a requester who is none.
use super::Drawing;
use crate::layout::{
    op, request, sort, ENTITIES, LEVEL_MOST, NAMES, OPERATION_MOST, PLACES, ROLES_MOST, SUM_MOST, USERS, WHO_MOST,
};

/// Numbers at the edges of the ranges there are, and of the word.
const ODD: [u32; 26] = [
    0,
    1,
    2,
    3,
    4,
    5,
    7,
    8,
    9,
    16,
    17,
    20,
    21,
    24,
    25,
    64,
    65,
    255,
    256,
    1023,
    1024,
    65_535,
    65_536,
    0x7fff_ffff,
    0x8000_0000,
    u32::MAX,
];

/// The least and the most of each argument; an argument that is not used lies from 0 to 0.
fn ranges(of: u32) -> [(u32, u32); 3] {
    use op::*;
    const NONE: (u32, u32) = (0, 0);
    const ANY: (u32, u32) = (0, u32::MAX);
    const LEVEL: (u32, u32) = (0, LEVEL_MOST);
    const USER: (u32, u32) = (1, USERS);
    match of {
        CREATE => [(sort::OBJECT, sort::DRAFT), LEVEL, NONE],
        EDIT => [ANY, NONE, NONE],
        SET_LEVEL | MAXIMUM | DEVICE_LEVEL => [LEVEL, NONE, NONE],
        SET_MARK => [(0, 1), NONE, NONE],
        GRANT | REVOKE => [(1, WHO_MOST), (1, OPERATION_MOST), (1, 2)],
        SHOW => [(1, SUM_MOST), NONE, NONE],
        CURRENT_ROLES | AUTHORISED_ROLES => [USER, (0, ROLES_MOST), NONE],
        CLEARANCE => [USER, LEVEL, NONE],
        ACKNOWLEDGE => [ANY, ANY, NONE],
        _ => [NONE; 3],
    }
}

impl Drawing<'_> {
    /// A number at some edge, or any.
    pub(super) fn odd_word(&mut self) -> u32 {
        if self.dice.chance(70) {
            self.dice.one_of(&ODD)
        } else {
            self.dice.word()
        }
    }

    /// Spoils a request now and then, in one way or in several.
    pub(super) fn spoil(&mut self, operands: u32) {
        if operands > 0 && self.dice.chance(3) {
            self.spoil_names(request::FIRST);
        }
        if operands > 1 && self.dice.chance(3) {
            self.spoil_names(request::SECOND);
        }
        if self.dice.chance(4) {
            self.spoil_shape();
        }
        if self.dice.chance(2) {
            let any_user = self.dice.chance(50);
            self.words[request::USER] = if any_user { self.dice.between(1, USERS) } else { self.odd_word() };
        }
    }

    /// Makes a reference lead nowhere, most of the time, by one name more or by another name.
    fn spoil_names(&mut self, at: usize) {
        let length = self.words[at] as usize;
        if length < NAMES as usize && self.dice.chance(50) {
            let place = self.dice.chance(60);
            self.words[at] += 1;
            self.words[at + 1 + length] = if place { self.dice.between(1, PLACES) } else { self.odd_word() };
        } else if self.dice.chance(50) {
            self.words[at + length] = self.odd_word();
        } else {
            self.words[at + 1] = self.dice.between(0, ENTITIES + 1);
        }
    }

    /// Gives a request the wrong shape, most of the time.
    fn spoil_shape(&mut self) {
        let name = 1 + self.dice.below(NAMES) as usize;
        let argument = request::A + self.dice.below(3) as usize;
        let at = match self.dice.below(8) {
            0 => request::FIRST,
            1 => request::SECOND,
            2 => request::SPARE,
            3 => request::FIRST + name,
            4 => request::SECOND + name,
            5 => argument,
            _ => return self.spoil_argument(),
        };
        self.words[at] = self.odd_word();
    }

    /// Puts an argument at an end of its range, or one past it.
    fn spoil_argument(&mut self) {
        let which = self.dice.below(3) as usize;
        let (least, most) = ranges(self.operation)[which];
        let past = self.dice.below(2);
        let low = self.dice.chance(50);
        self.words[request::A + which] = if low { least.wrapping_sub(past) } else { most.wrapping_add(past) };
    }
}
