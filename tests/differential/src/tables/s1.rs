//! Case state S1 and every answer that document 01 gives for it, asked of both desks. One answer has changed since: the level of 7 to 1 is a drop
//! sideways, which takes a downgrader [request M-101]. The disclosure list is asked twice: by its own call, and by its meaning, which is the
//! references whose show is answered 0 or 14.
use super::by_step::{by_ordinary_step, by_proved_step};
use crate::guarded::Guarded;
use crate::outcome::{Out, Outcome};
use crate::side::Side;
use generate::layout::{
    entity, entity_base, kind, op, refusal, request, types, user, user_base, ENTRY_WORDS, REQUEST_WORDS,
};
use generate::{s1, s1_unmarked};
use ordinary::{Reply, Right};

/// The words of a request.
pub type Words = [u32; REQUEST_WORDS];

/// A list of S1, or of S1 with its marked container unmarked.
pub struct ListCase {
    pub what: &'static str,
    pub unmarked: bool,
    pub user: u32,
    /// In a room that is long enough.
    pub answer: u32,
    pub entries: &'static [[u32; ENTRY_WORDS]],
}

impl ListCase {
    /// The tables that the list is asked of.
    pub fn tables(&self) -> Vec<u32> {
        if self.unmarked {
            s1_unmarked()
        } else {
            s1()
        }
    }

    /// The words that the list leaves.
    pub fn words(&self) -> Vec<u32> {
        self.entries.concat()
    }
}

/// A row of the table below.
const fn list(
    what: &'static str,
    unmarked: bool,
    user: u32,
    answer: u32,
    entries: &'static [[u32; ENTRY_WORDS]],
) -> ListCase {
    ListCase { what, unmarked, user, answer, entries }
}

/// Every user of S1, and one who is none.
pub const LISTS: [ListCase; 8] = [
    list("list for user 1", false, 1, 0, &[]),
    list("list for user 2", false, 2, 0, &[[1, 5, 0, 0, 0]]),
    list("list for user 3", false, 3, 6, &[]),
    list("list for user 9", false, 9, 4, &[]),
    list("list for user 1 with 4 unmarked", true, 1, 0, &[]),
    list("list for user 2 with 4 unmarked", true, 2, 0, &[[2, 4, 1, 0, 0], [1, 5, 0, 0, 0]]),
    list("list for user 3 with 4 unmarked", true, 3, 6, &[]),
    list("list for user 9 with 4 unmarked", true, 9, 4, &[]),
];

/// A request with these operands and arguments.
fn request(requester: u32, operation: u32, operands: [&[u32]; 2], arguments: [u32; 2]) -> Words {
    let mut words = [0; REQUEST_WORDS];
    words[request::USER] = requester;
    words[request::OPERATION] = operation;
    for (at, names) in [request::FIRST, request::SECOND].iter().zip(operands) {
        words[*at] = names.len() as u32;
        words[at + 1..at + 1 + names.len()].copy_from_slice(names);
    }
    words[request::A] = arguments[0];
    words[request::B] = arguments[1];
    words
}

/// A show with a = 3, unless it says otherwise.
pub fn show(requester: u32, names: &[u32], sum: u32) -> Words {
    request(requester, op::SHOW, [names, &[]], [sum, 0])
}

/// A show whose first reference claims five names.
fn show_of_length_5() -> Words {
    let mut words = show(2, &[5], 3);
    words[request::FIRST] = 5;
    words
}

/// User 1 releases 6.
pub fn release_6() -> Words {
    request(1, op::RELEASE, [&[6], &[]], [0, 0])
}

/// User 1 takes these roles on.
pub fn current_roles_of_1(roles: u32) -> Words {
    request(1, op::CURRENT_ROLES, [&[], &[]], [1, roles])
}

/// User 2 copies 5 to 7.
fn copy_5_to_7() -> Words {
    request(2, op::COPY, [&[5], &[7]], [0, 0])
}

/// User 2 creates an object in 7.
fn create_in_7(level: u32) -> Words {
    request(2, op::CREATE, [&[7], &[]], [1, level])
}

/// User 1 sets the level of 7.
pub fn level_of_7(level: u32) -> Words {
    request(1, op::SET_LEVEL, [&[7], &[]], [level, 0])
}

/// User 2 acknowledges.
pub fn acknowledge(held: u32, missed: u32) -> Words {
    request(2, op::ACKNOWLEDGE, [&[], &[]], [held, missed])
}

/// The cases that are one request each to S1 as it is.
fn single_requests() -> Vec<(&'static str, Words, u32)> {
    vec![
        ("user 2 show 5", show(2, &[5], 3), 0),
        ("user 2 show 4.1", show(2, &[4, 1], 3), 9),
        ("user 2 show 5, a=1", show(2, &[5], 1), 15),
        ("user 2 show 5.1", show(2, &[5, 1], 3), 7),
        ("user 2 show, length 5", show_of_length_5(), 5),
        ("user 2 copy 5 to 7", copy_5_to_7(), 0),
        ("user 2 create in 7, level 257", create_in_7(257), 13),
        ("user 2 create in 7, level 0", create_in_7(0), 0),
        ("user 1 release 6", release_6(), 12),
        ("user 1 level of 7 to 0", level_of_7(0), 12),
        ("user 1 level of 7 to 1", level_of_7(1), 12),
        ("user 3 show 5", show(3, &[5], 3), 6),
        ("user 3 login 3", request(3, op::LOGIN, [&[3], &[]], [0, 0]), 0),
        ("user 9 show 5", show(9, &[5], 3), 4),
    ]
}

/// One desk on trial.
struct Trial<'a> {
    side: Side<'a>,
    tables: Vec<u32>,
    asked: u64,
    outcome: Outcome,
    out: Out,
}

impl Trial<'_> {
    /// Counts a thing that was asked, and says so where it is not as wanted.
    fn expect(&mut self, what: &str, got: u32, wanted: u32) {
        self.asked += 1;
        if got != wanted {
            let line = format!("{}: {}: {} instead of {}", self.side.name(), what, got, wanted);
            self.out.line(format_args!("{}", line));
            self.outcome.first.get_or_insert(line);
            self.outcome.differences += 1;
        }
    }

    /// The same for something that should hold.
    fn expect_true(&mut self, what: &str, holds: bool) {
        self.expect(what, u32::from(holds), 1);
    }

    /// A request to the tables as they stand.
    fn ask(&mut self, request: &Words) -> u32 {
        self.side.step(&mut self.tables, request).answer
    }

    /// A word of an entity now.
    fn entity(&self, number: u32, word: usize) -> u32 {
        self.tables[entity_base(number) + word]
    }

    /// A word of a user now.
    fn user(&self, number: u32, word: usize) -> u32 {
        self.tables[user_base(number) + word]
    }

    /// Each single request, on S1 as it is.
    fn check_single_requests(&mut self) {
        for (what, request, wanted) in single_requests() {
            self.tables = s1();
            let given = self.ask(&request);
            self.expect(what, given, wanted);
        }
    }

    /// What the accepted ones leave, as far as document 01 says it.
    fn check_effects(&mut self) {
        self.tables = s1();
        self.expect("state check of S1", self.side.check(&self.tables).answer, 0);
        self.ask(&copy_5_to_7());
        self.expect("value of 7 after the copy", self.entity(7, entity::VALUE), 40);
        self.tables = s1();
        self.ask(&create_in_7(0));
        self.expect("kind of 8 after the create", self.entity(8, entity::KIND), kind::OBJECT);
        self.expect("first place of 7 after the create", self.entity(7, entity::CONTENTS), 8);
    }

    /// The release that is accepted after a change of roles.
    fn check_release(&mut self) {
        self.tables = s1();
        let given = self.ask(&current_roles_of_1(5));
        self.expect("user 1 current roles 5", given, 0);
        let given = self.ask(&release_6());
        self.expect("user 1 release 6 after that", given, 0);
        self.expect("type of 6 after that", self.entity(6, entity::TYPE), types::RELEASED);
        self.expect("releaser of 6 after that", self.entity(6, entity::RELEASER), 1);
    }

    /// Asks a request, and expects the answer and what the requester then has held and how many were missed.
    fn expect_notice(&mut self, what: &str, request: &Words, wanted: [u32; 3]) {
        let given = self.ask(request);
        let requester = request[request::USER];
        self.expect(what, given, wanted[0]);
        self.expect(&format!("held after {}", what), self.user(requester, user::HELD), wanted[1]);
        self.expect(&format!("missed after {}", what), self.user(requester, user::MISSED), wanted[2]);
    }

    /// Drops of a level: refused for want of a downgrader, and accepted of one.
    fn check_drops(&mut self) {
        self.tables = s1();
        self.expect_notice("level of 7 to 0", &level_of_7(0), [12, 12, 1]);
        self.expect_notice("level of 7 to 1", &level_of_7(1), [12, 12, 2]);
        self.expect("level of 7 after both", self.entity(7, entity::LEVEL), 256);
        self.expect_notice("user 1 current roles 3", &current_roles_of_1(3), [0, 12, 2]);
        self.expect_notice("level of 7 to 1 after that", &level_of_7(1), [0, 12, 2]);
        self.expect("level of 7 after that", self.entity(7, entity::LEVEL), 1);
    }

    /// Two refusals, a wrong acknowledgement and a right one.
    fn check_notice(&mut self) {
        self.tables = s1();
        self.expect_notice("show 4.1", &show(2, &[4, 1], 3), [9, 9, 1]);
        self.expect_notice("show 5, a=1", &show(2, &[5], 1), [15, 9, 2]);
        self.expect_notice("acknowledge 9,1", &acknowledge(9, 1), [16, 9, 3]);
        self.expect_notice("acknowledge 9,3", &acknowledge(9, 3), [0, 0, 0]);
    }

    /// The two requests of the script, with what the program writes for them.
    fn check_script(&mut self) {
        self.tables = s1();
        self.expect_notice("first of the script", &show(2, &[4, 1], 3), [9, 9, 1]);
        self.expect_notice("second of the script", &show(2, &[5], 3), [0, 9, 1]);
    }

    /// A list by its own call, in a room of exactly its length.
    fn check_list(&mut self, case: &ListCase) {
        let words = case.words();
        let tables = case.tables();
        let mut lent = Guarded::holding(&tables);
        let mut room = Guarded::room(words.len());
        let reply = self.side.list(lent.lent(), case.user, room.lent());
        let wanted = Reply { answer: case.answer, number: case.entries.len() as u32 };
        self.expect_true(case.what, reply == wanted);
        self.expect_true(case.what, room.holds(&words) && lent.holds(&tables));
        if case.answer == refusal::ACCEPTED {
            let by_step = match self.side {
                Side::Ordinary(_) => by_ordinary_step(&tables, case.user),
                Side::Proved => by_proved_step(&tables, case.user),
            };
            self.expect_true(&format!("{}, by the step", case.what), by_step == Some(words));
        }
    }

    /// All that is said of S1.
    fn check_all(&mut self) {
        self.check_single_requests();
        self.check_effects();
        self.check_release();
        self.check_drops();
        self.check_notice();
        self.check_script();
        for case in &LISTS {
            self.check_list(case);
        }
    }
}

/// Asks both desks for everything.
pub fn run(out: Out) -> Outcome {
    let mut all = Outcome::default();
    for side in [Side::Ordinary(&Right), Side::Proved] {
        let mut trial = Trial { side, tables: Vec::new(), asked: 0, outcome: Outcome::default(), out };
        trial.check_all();
        let wrong = trial.outcome.differences;
        out.line(format_args!("s1, {}: {} things asked, {} wrong", side.name(), trial.asked, wrong));
        all.differences += wrong;
        all.first = all.first.or(trial.outcome.first);
    }
    all
}
