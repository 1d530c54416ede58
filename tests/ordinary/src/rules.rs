//! Desks that each make one error, and the right desk, which makes none.

use crate::Reply;

/// A desk as an object, so that a wrong one can be chosen by name.
pub trait Desk {
    /// Says whether tables are well-formed and secure.
    fn check(&self, tables: &[u32]) -> Reply;
    /// Carries out one request, or refuses it.
    fn step(&self, tables: &mut [u32], request: &[u32]) -> Reply;
    /// Carries out or refuses requests one after another.
    fn run(&self, tables: &mut [u32], requests: &[u32], answers: &mut [u32]) -> Reply;
    /// Lists what a user could show.
    fn list(&self, tables: &[u32], user: u32, room: &mut [u32]) -> Reply;
    /// Turns a text into the words of a request.
    fn read(&self, text: &[u8], request: &mut [u32]) -> Reply;
    /// Turns the words of a request into a text.
    fn write(&self, request: &[u32], room: &mut [u8]) -> Reply;
    /// Turns the words of tables into a text.
    fn write_tables(&self, tables: &[u32], room: &mut [u8]) -> Reply;
    /// Turns a text into the words of tables.
    fn read_tables(&self, text: &[u8], tables: &mut [u32]) -> Reply;
    /// Gives what the program writes for a script.
    fn script(&self, state: &[u8], script: &[u8]) -> Vec<u8>;
    /// Compares two levels.
    fn at_most(&self, a: u32, b: u32) -> bool;
}

impl<R: Rules> Desk for R {
    fn check(&self, tables: &[u32]) -> Reply {
        crate::check::<R>(tables)
    }

    fn step(&self, tables: &mut [u32], request: &[u32]) -> Reply {
        crate::step::<R>(tables, request)
    }

    fn run(&self, tables: &mut [u32], requests: &[u32], answers: &mut [u32]) -> Reply {
        crate::run::<R>(tables, requests, answers)
    }

    fn list(&self, tables: &[u32], user: u32, room: &mut [u32]) -> Reply {
        crate::list::<R>(tables, user, room)
    }

    fn read(&self, text: &[u8], request: &mut [u32]) -> Reply {
        crate::read::<R>(text, request)
    }

    fn write(&self, request: &[u32], room: &mut [u8]) -> Reply {
        crate::write::<R>(request, room)
    }

    fn write_tables(&self, tables: &[u32], room: &mut [u8]) -> Reply {
        crate::write_tables::<R>(tables, room)
    }

    fn read_tables(&self, text: &[u8], tables: &mut [u32]) -> Reply {
        crate::read_tables::<R>(text, tables)
    }

    fn script(&self, state: &[u8], script: &[u8]) -> Vec<u8> {
        crate::script::<R>(state, script)
    }

    fn at_most(&self, a: u32, b: u32) -> bool {
        crate::at_most::<R>(a, b)
    }
}

/// Calls that are compared together: check, step and list; read and write; run; the writer and the reader of tables.
#[derive(Clone, Copy, Debug, PartialEq, Eq)]
pub enum Calls {
    Tables,
    Texts,
    Runs,
    TablesText,
}

/// A wrong desk: its name, what it does wrong, the calls where that must be noticed, and the desk.
pub struct Wrong {
    pub name: &'static str,
    pub error: &'static str,
    pub calls: Calls,
    pub desk: &'static (dyn Desk + Sync),
}

/// The desk without an error.
pub struct Right;

impl Rules for Right {}

/// Makes, of one row for each error, the constant of `Rules`, the desk that sets it and the line of `WRONG`.
macro_rules! errors {
    ($($constant:ident, $desk:ident, $name:literal, $calls:ident, $error:literal;)*) => {
        /// Which errors a desk makes; by default none. They are constants, so that the right desk pays nothing.
        pub trait Rules {
            $(#[doc = $error] const $constant: bool = false;)*
        }

        $(
            struct $desk;

            impl Rules for $desk {
                const $constant: bool = true;
            }
        )*

        /// One wrong desk for each error.
        pub static WRONG: &[Wrong] =
            &[$(Wrong { name: $name, error: $error, calls: Calls::$calls, desk: &$desk }),*];
    };
}

errors! {
    LEVELS, Levels, "levels", Tables, "a level is taken to be lower wherever its number is";
    SIDEWAYS, Sideways, "sideways", Tables, "an entity's level goes sideways without a downgrader";
    ASIDE, Aside, "aside", Tables, "a device's level goes sideways without a downgrader, whoever's it is";
    EQUAL, Equal, "equal", Tables, "to set the level that an entity has takes a downgrader";
    OWN, Own, "own", Tables, "the own device's level goes sideways with a downgrader only";
    MARK, Mark, "mark", Tables, "a mark bars what bears it, and not what lies behind it";
    ROLES, Roles, "roles", Tables, "a role counts that is authorised, current or not";
    NOTICE, Notice, "notice", Tables, "a later refusal takes the place of the one that is held";
    ROOM, Room, "room", Tables, "a move within a full container is refused for want of a place";
    DEVICES, Devices, "devices", Tables, "the list forgets references that go through a device";
    NAMED, Named, "named", Tables, "in the list a mark bars what bears it, and not what lies behind it";
    EARLY, Early, "early", Tables, "the list writes entries before it knows that the room suffices";
    COUNT, Count, "count", Tables, "the list counts one entry more than there are";
    SCREEN, Screen, "screen", Tables, "the list leaves off what a full screen has no place for";
    ZEROS, Zeros, "zeros", Tables, "the list leaves a longer reference's names behind a shorter one's length";
    LEADING, Leading, "leading", Texts, "the reader accepts a leading zero";
    WRAPPED, Wrapped, "wrapped", Texts, "the reader takes a number beyond 32 bits for what is left of it";
    LINE, Line, "line", Texts, "the reader counts its lines from 0";
    BEHIND, Behind, "behind", Texts, "the reader accepts bytes behind the seventh line";
    TAIL, Tail, "tail", Texts, "the writer does not look at name words behind a reference's length";
    BYTE, Byte, "byte", Texts, "the writer accepts a room that is one byte too short";
    LATE, Late, "late", Runs, "a run writes each answer one place late";
    STOPS, Stops, "stops", Runs, "a run ends at the first request that is refused";
    BACK, Back, "back", Runs, "a run with a request that is refused puts its tables back";
    SILENT, Silent, "silent", Runs, "a request that is refused in a run leaves no notice";
    AHEAD, Ahead, "ahead", Runs, "a run does all at its first request, and answers from the tables at the end";
    BEFORE, Before, "before", Runs, "a run answers all from the tables at the start";
    LAST, Last, "last", Runs, "a run leaves its last request out";
    TRUSTS, Trusts, "trusts", Runs, "a run does not check its tables";
    ITSELF, Itself, "itself", Runs, "a run is itself refused with 2 or 3 where its tables fail the check";
    FITS, Fits, "fits", Runs, "a run with too few places writes the answers that fit";
    REST, Rest, "rest", Runs, "a run passes over words that are less than a request";
    SPARE, Spare, "spare", Runs, "a run writes 0 to the places behind its answers";
    ABSENT, Absent, "absent", TablesText, "the text of tables has records of who or what is absent";
    TURNED, Turned, "turned", TablesText, "the text of tables has the entities before the users";
    GAPS, Gaps, "gaps", TablesText, "the text of tables has an empty line between two records";
    BARE, Bare, "bare", TablesText, "the text of tables leaves out what is 0";
    SUMS, Sums, "sums", TablesText, "the text of tables has places without their sums";
    UNSHOWN, Unshown, "unshown", TablesText, "the text of tables has 0 for the sum of each place";
    PARTS, Parts, "parts", TablesText, "the text of tables has the operation of a triple before who";
    ANYHOW, Anyhow, "anyhow", TablesText, "the writer of tables does not look whether they are well-formed";
    SECURE, Secure, "secure", TablesText, "the writer of tables refuses those that are not secure";
    NEEDS, Needs, "needs", TablesText, "the writer of tables looks at the room first, and then at the tables";
    SCANT, Scant, "scant", TablesText, "the writer of tables accepts a room that is one byte too short";
    PARTLY, Partly, "partly", TablesText, "the writer of tables writes to a room that is too short what fits there";
    CLEARS, Clears, "clears", TablesText, "the writer of tables writes 0 to the bytes behind the text";
    LENGTHS, Lengths, "lengths", TablesText, "the reader of tables looks at the text first, and then at their length";
    HASTY, Hasty, "hasty", TablesText, "the reader of tables answers 2 for a level before it has read the rest";
    SOONER, Sooner, "sooner", TablesText, "the reader of tables names a line that is missing one too early";
    SPILLS, Spills, "spills", TablesText, "the reader of tables leaves what it has read before a bad line";
    KEEPS, Keeps, "keeps", TablesText, "the reader of tables leaves tables that it answers 2 for";
    STALE, Stale, "stale", TablesText, "the reader of tables leaves the words of absent records as they were";
    ALLOWS, Allows, "allows", TablesText, "the reader of tables does not look whether they are well-formed";
    STRICT, Strict, "strict", TablesText, "the reader of tables refuses those that are not secure";
    PADDED, Padded, "padded", TablesText, "the reader of tables accepts a leading zero";
    ROUND, Round, "round", TablesText, "the reader of tables takes a number beyond 32 bits for what is left of it";
    RETURN, Return, "return", TablesText, "the reader of tables accepts CR LF";
    OPEN, Open, "open", TablesText, "the reader of tables accepts a last line that does not end";
    MORE, More, "more", TablesText, "the reader of tables accepts an empty line at the end";
    MIXED, Mixed, "mixed", TablesText, "the reader of tables accepts users whose numbers do not rise";
    FALLS, Falls, "falls", TablesText, "the reader of tables accepts entities whose numbers do not rise";
    BEYOND, Beyond, "beyond", TablesText, "the reader of tables accepts a user 17";
    AGAIN, Again, "again", TablesText, "the reader of tables accepts a user behind an entity";
    KINDS, Kinds, "kinds", TablesText, "the reader of tables accepts the kind 0";
    NINTH, Ninth, "ninth", TablesText, "the reader of tables accepts nine places";
    UNSEEN, Unseen, "unseen", TablesText, "the reader of tables passes over the sums of places";
    TALLY, Tally, "tally", TablesText, "the reader of tables takes as many triples as there are lines of them";
    NIL, Nil, "nil", TablesText, "the reader of tables accepts a triple of which all parts are 0";
    WIDE, Wide, "wide", TablesText, "the reader of tables accepts a triple for 65,536";
    CARRY, Carry, "carry", TablesText, "the reader of tables accepts a triple of operation 256";
    FAR, Far, "far", TablesText, "the reader of tables accepts a triple of position 256";
}
