//! The two desks, each as a row of calls. They are reached through pointers that are chosen while the program runs, and behind each stands a
//! function that may not be taken into its caller: so no call of the ordinary desk is merged with another, moved out of a loop or left out
//! because its outcome is not needed, which could never happen to the proved ones.
use crate::advance;
use bench::side::{packed, Outcome, Side};
use ordinary::Right;

/// One of the eight calls of a desk, kept out of line.
macro_rules! call {
    ($name:ident, $desk:path, $answer:ident, ($($given:ident: $kind:ty),*)) => {
        #[inline(never)]
        fn $name($($given: $kind),*) -> Outcome {
            let outcome = $desk($($given),*);
            packed(outcome.$answer, outcome.number)
        }
    };
}

call!(proved_check, mms::words::check, no, (tables: &[u32]));
call!(proved_step, mms::words::step, no, (tables: &mut [u32], request: &[u32]));
call!(proved_run, mms::words::run, no, (tables: &mut [u32], requests: &[u32], answers: &mut [u32]));
call!(proved_list, mms::words::list, no, (tables: &[u32], user: u32, room: &mut [u32]));
call!(proved_read, mms::words::read, no, (text: &[u8], request: &mut [u32]));
call!(proved_write, mms::words::write, no, (request: &[u32], room: &mut [u8]));
call!(proved_read_tables, mms::words::read_tables, no, (text: &[u8], tables: &mut [u32]));
call!(proved_write_tables, mms::words::write_tables, no, (tables: &[u32], room: &mut [u8]));

call!(ordinary_check, ordinary::check::<Right>, answer, (tables: &[u32]));
call!(ordinary_step, ordinary::step::<Right>, answer, (tables: &mut [u32], request: &[u32]));
call!(ordinary_run, ordinary::run::<Right>, answer, (tables: &mut [u32], requests: &[u32], answers: &mut [u32]));
call!(ordinary_list, ordinary::list::<Right>, answer, (tables: &[u32], user: u32, room: &mut [u32]));
call!(ordinary_read, ordinary::read::<Right>, answer, (text: &[u8], request: &mut [u32]));
call!(ordinary_write, ordinary::write::<Right>, answer, (request: &[u32], room: &mut [u8]));
call!(ordinary_read_tables, ordinary::read_tables::<Right>, answer, (text: &[u8], tables: &mut [u32]));
call!(ordinary_write_tables, ordinary::write_tables::<Right>, answer, (tables: &[u32], room: &mut [u8]));

/// The proved step without the check, which answers no number.
#[inline(never)]
fn proved_advance(tables: &mut [u32], request: &[u32]) -> Outcome {
    packed(advance::advance(tables, request), 0)
}

/// The ordinary step without the check, which answers no number.
#[inline(never)]
fn ordinary_advance(tables: &mut [u32], request: &[u32]) -> Outcome {
    packed(ordinary::advance::<Right>(tables, request), 0)
}

/// The proved desk, over its archives.
pub static PROVED: Side = Side {
    name: "proved",
    check: proved_check,
    step: proved_step,
    advance: proved_advance,
    run: proved_run,
    list: proved_list,
    read: proved_read,
    write: proved_write,
    read_tables: proved_read_tables,
    write_tables: proved_write_tables,
};

/// The desk as one would write it by hand.
pub static ORDINARY: Side = Side {
    name: "ordinary",
    check: ordinary_check,
    step: ordinary_step,
    advance: ordinary_advance,
    run: ordinary_run,
    list: ordinary_list,
    read: ordinary_read,
    write: ordinary_write,
    read_tables: ordinary_read_tables,
    write_tables: ordinary_write_tables,
};

/// Both, in the order of the printed columns.
pub static SIDES: [&Side; 2] = [&PROVED, &ORDINARY];
