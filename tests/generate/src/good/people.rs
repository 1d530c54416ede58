//! The users of good tables, and what their screens show.
use super::Plan;
use crate::layout::{
    at_most, entity, refusal, role, user, user_base, LEVEL_MOST, MISSED_MOST, OPERATION_MOST, PLACES, ROLES_MOST,
    STEP_MOST, USERS,
};
use crate::view::{entity_record, is_on, user_record, users_where};

/// The sums that show no value without its label.
const LABELLED_SUMS: [u32; 5] = [2, 3, 4, 6, 7];

/// Numbers of a notice at the edges, where one more or one less matters.
const EDGES: [u32; 5] = [1, 2, 3, MISSED_MOST - 1, MISSED_MOST];

impl Plan<'_> {
    /// Makes one to sixteen users, and logs some of them on as long as there are devices.
    pub(super) fn make_users(&mut self) {
        let mut numbers: Vec<u32> = (1..=USERS).collect();
        self.dice.shuffle(&mut numbers);
        numbers.truncate(self.dice.between(1, USERS) as usize);
        let mut free = self.devices.clone();
        for number in numbers {
            self.make_user(number);
            self.make_notice(number);
            if self.dice.chance(70) {
                self.log_on(number, free.pop());
            }
        }
    }

    /// The words of a user, to be written.
    fn user(&mut self, number: u32) -> &mut [u32] {
        &mut self.tables[user_base(number)..]
    }

    /// Makes a user who is off: many may see everything, many may take on each of the desk's roles.
    fn make_user(&mut self, number: u32) {
        let clearance = if self.dice.chance(35) { LEVEL_MOST } else { self.level() };
        let mut roles = self.dice.word() & ROLES_MOST;
        if self.dice.chance(40) {
            roles |= role::OFFICER | role::DOWNGRADER | role::RELEASER;
        }
        let record = self.user(number);
        record[user::PRESENT] = 1;
        record[user::CLEARANCE] = clearance;
        record[user::AUTHORISED] = roles;
    }

    /// Half of the users have a notice.
    fn make_notice(&mut self, number: u32) {
        if self.dice.chance(45) {
            return;
        }
        let held = self.dice.between(refusal::BAD_REQUEST, STEP_MOST);
        let operation = self.dice.between(0, OPERATION_MOST);
        let missed = if self.dice.chance(50) { self.dice.one_of(&EDGES) } else { self.dice.between(1, MISSED_MOST) };
        let record = self.user(number);
        record[user::HELD] = held;
        record[user::HELD_OPERATION] = operation;
        record[user::MISSED] = missed;
    }

    /// Logs a user on, with all or some of the roles, where there is a device.
    fn log_on(&mut self, number: u32, device: Option<u32>) {
        let kept = if self.dice.chance(60) { self.dice.word() } else { ROLES_MOST };
        let record = self.user(number);
        if let Some(device) = device {
            record[user::DEVICE] = device;
            record[user::CURRENT] = record[user::AUTHORISED] & kept;
        }
    }

    /// Puts something on the screen of each user who is on.
    pub(super) fn make_screens(&mut self) {
        for number in users_where(&self.tables, is_on) {
            let wanted = if self.dice.chance(40) { PLACES } else { self.dice.between(0, PLACES) };
            self.make_screen(number, wanted as usize);
        }
    }

    /// Shows as many entities as are wanted, of those that the user and the device may show.
    fn make_screen(&mut self, number: u32, wanted: usize) {
        let record = user_record(&self.tables, number);
        let (clearance, device) = (record[user::CLEARANCE], record[user::DEVICE]);
        let screen = entity_record(&self.tables, device)[entity::LEVEL];
        let mut order = self.inner.clone();
        self.dice.shuffle(&mut order);
        order.retain(|&number| {
            let level = entity_record(&self.tables, number)[entity::LEVEL];
            at_most(level, screen) && at_most(level, clearance)
        });
        order.truncate(wanted);
        let sums: Vec<u32> = order.iter().map(|_| self.dice.one_of(&LABELLED_SUMS)).collect();
        let record = self.entity(device);
        record[entity::USED] = order.len() as u32;
        record[entity::CONTENTS..][..order.len()].copy_from_slice(&order);
        record[entity::SHOWN..][..sums.len()].copy_from_slice(&sums);
    }
}
