//! The contests: one call on one load, for both sides.
use crate::sides::PROVED;
use bench::load::{Call, Load};
use bench::requests::Wanted;
use bench::{requests, runs, tables, texts};
use generate::layout::OPERATION_MOST;
use generate::{dice_for, full, longest, Dice};

/// The operations by their numbers from 1.
const OPERATION_NAMES: [&str; OPERATION_MOST as usize] = [
    "create",
    "delete",
    "move",
    "edit",
    "copy",
    "level",
    "mark",
    "grant",
    "revoke",
    "show",
    "clear",
    "login",
    "logout",
    "current-roles",
    "clearance",
    "authorised-roles",
    "maximum",
    "device-level",
    "release",
    "acknowledge",
];

/// What a load is made of.
#[derive(Clone, Copy, Debug, PartialEq, Eq)]
pub enum Kind {
    S1,
    Middle,
    Full,
    Fullest,
    Mixed,
    Operation(u32),
    Short,
    Longest,
}

impl Kind {
    /// As it is named in the output and on the command line.
    pub fn name(self) -> &'static str {
        match self {
            Kind::S1 => "s1",
            Kind::Middle => "middle",
            Kind::Full => "full",
            Kind::Fullest => "fullest",
            Kind::Mixed => "mixed",
            Kind::Operation(number) => OPERATION_NAMES[number as usize - 1],
            Kind::Short => "short",
            Kind::Longest => "longest",
        }
    }

    /// Dice of its own, so that a load is the same whichever others are made.
    fn dice(self, seed: u64) -> Dice {
        let behind_operations = match self {
            Kind::Operation(number) => return dice_for(seed, u64::from(number)),
            Kind::S1 => 1,
            Kind::Middle => 2,
            Kind::Full => 3,
            Kind::Fullest => 4,
            Kind::Mixed => 5,
            Kind::Short => 6,
            Kind::Longest => 7,
        };
        dice_for(seed, u64::from(OPERATION_MOST) + behind_operations)
    }
}

/// One call on one load.
#[derive(Clone, Copy, Debug, PartialEq, Eq)]
pub struct Contest {
    pub call: Call,
    pub kind: Kind,
}

/// A run of requests of all operations.
pub const RUN: Contest = Contest { call: Call::Run, kind: Kind::Mixed };
/// The step without the check on requests of all operations.
pub const MIX: Contest = Contest { call: Call::Advance, kind: Kind::Mixed };

/// All contests, in the order in which they are printed.
pub fn all() -> Vec<Contest> {
    let tables = [Kind::S1, Kind::Middle, Kind::Full, Kind::Fullest];
    let texts = [Kind::Short, Kind::Longest, Kind::Mixed];
    let tables_texts = [Kind::S1, Kind::Middle, Kind::Full, Kind::Longest];
    let operations: Vec<Kind> = (1..=OPERATION_MOST).map(Kind::Operation).collect();
    let of = |call: Call, kinds: &[Kind]| kinds.iter().map(|&kind| Contest { call, kind }).collect::<Vec<_>>();
    [
        of(Call::Check, &tables),
        of(Call::Step, &[Kind::Mixed]),
        vec![RUN, MIX],
        of(Call::Advance, &operations),
        of(Call::List, &tables),
        of(Call::Read, &texts),
        of(Call::Write, &texts),
        of(Call::ReadTables, &tables_texts),
        of(Call::WriteTables, &tables_texts),
    ]
    .concat()
}

/// The contest with these names.
pub fn find(call: &str, load: &str) -> Option<Contest> {
    all().into_iter().find(|contest| contest.call.name() == call && contest.kind.name() == load)
}

impl Contest {
    /// Its name, for whoever reads a message.
    pub fn name(&self) -> String {
        format!("{} {}", self.call.name(), self.kind.name())
    }

    /// Its load of so many tables, which follow from the seed and have all passed the check. Else what is wrong. A smaller load is the
    /// beginning of a larger one.
    pub fn load(&self, seed: u64, tables: usize) -> Result<Load, String> {
        let mut dice = self.kind.dice(seed);
        let load = match self.call {
            Call::Check | Call::WriteTables => self.check_load(&mut dice, tables),
            Call::ReadTables => tables::with_texts(self.check_load(&mut dice, tables)),
            Call::List => self.list_load(&mut dice, tables),
            Call::Step | Call::Advance => self.request_load(&mut dice, tables),
            Call::Run => runs::prepare(&mut dice),
            Call::Read | Call::Write => self.text_load(&mut dice, tables),
        };
        self.checked(load)
    }

    /// A load whose tables have all passed the check; else what is wrong.
    pub fn checked(&self, load: Load) -> Result<Load, String> {
        match load.tables.iter().all(|tables| (PROVED.check)(tables) == 0) {
            true => Ok(load),
            false => Err(format!("{}: tables that are meant to be good are not", self.name())),
        }
    }

    /// Tables to check or to write.
    fn check_load(&self, dice: &mut Dice, tables: usize) -> Load {
        self.maker().map_or_else(tables::check_s1, |make| tables::check(dice, tables, make))
    }

    /// Tables, and who asks for the lists of what they hold.
    fn list_load(&self, dice: &mut Dice, tables: usize) -> Load {
        self.maker().map_or_else(tables::list_s1, |make| tables::list(dice, tables, make))
    }

    /// What makes its tables; none where they are S1.
    fn maker(&self) -> Option<tables::Maker> {
        match self.kind {
            Kind::S1 => None,
            Kind::Full => Some(full::full),
            Kind::Fullest => Some(full::fullest),
            Kind::Longest => Some(longest::longest_text),
            _ => Some(generate::tables),
        }
    }

    /// Tables and requests to them, of one operation or of all.
    fn request_load(&self, dice: &mut Dice, tables: usize) -> Load {
        let wanted = match self.kind {
            Kind::Operation(number) => Wanted { operations: number..=number, of_each: 4, open: 0 },
            _ => Wanted { operations: 1..=OPERATION_MOST, of_each: 3, open: 6 },
        };
        requests::prepare(dice, tables, wanted)
    }

    /// Requests and their texts, without tables.
    fn text_load(&self, dice: &mut Dice, tables: usize) -> Load {
        match self.kind {
            Kind::Short => texts::prepare_short(dice, tables),
            Kind::Longest => texts::prepare_longest(dice, tables),
            _ => texts::prepare_mixed(dice, tables),
        }
    }
}
