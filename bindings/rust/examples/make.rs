//! Case state S1 from nothing, as tables are made at the start: by the typed writers alone. Prints the check's answer,
//! each word that is not 0, and whether the tables are those of a state file.
//!
//!     make [FILE]    compared with FILE, by default examples/state.words
use mms::{Entity, Level, Operation, Position, Refusal, Roles, Tables, Triple, User};
use std::{env, error::Error, fs};

fn put_users(tables: &mut Tables) -> Result<(), Box<dyn Error>> {
    let (officer, second, third) = (User::try_from(1)?, User::try_from(2)?, User::try_from(3)?);
    let both = Roles::DOWNGRADER | Roles::RELEASER;
    tables.put_user(officer, Level::HIGHEST, Roles::OFFICER | both);
    tables.put_on(officer, Entity::try_from(1)?, Roles::OFFICER);
    tables.put_user(second, level(1, 0)?, Roles::NONE);
    tables.put_on(second, Entity::try_from(2)?, Roles::NONE);
    tables.put_user(third, level(2, 1)?, both);
    Ok(())
}

fn put_entities(tables: &mut Tables) -> Result<(), Box<dyn Error>> {
    tables.put_device(Entity::try_from(1)?, Level::HIGHEST, Level::HIGHEST);
    tables.put_device(Entity::try_from(2)?, level(2, 0)?, level(2, 0)?);
    tables.put_device(Entity::try_from(3)?, Level::LOWEST, Level::HIGHEST);
    let (marked, object) = (Entity::try_from(4)?, Entity::try_from(5)?);
    let (draft, empty) = (Entity::try_from(6)?, Entity::try_from(7)?);
    tables.put_container(marked, level(2, 1)?);
    tables.put_mark(marked, true);
    tables.put_object(object, level(1, 0)?);
    tables.put_value(object, 40);
    tables.put_inside(object, marked)?;
    tables.put_draft(draft, level(2, 1)?);
    tables.put_value(draft, 41);
    tables.put_inside(draft, marked)?;
    tables.put_container(empty, level(1, 0)?);
    Ok(())
}

/// The triples: on which entity, who, what, and as which operand.
fn put_triples(tables: &mut Tables) -> Result<(), Box<dyn Error>> {
    let triples = [
        (3, 3, Operation::Login, Position::First),
        (5, 2, Operation::Show, Position::First),
        (5, 2, Operation::Copy, Position::First),
        (6, 1, Operation::Release, Position::First),
        (7, 2, Operation::Copy, Position::Second),
        (7, 2, Operation::Create, Position::First),
        (7, 1, Operation::Level, Position::First),
    ];
    for (on, who, operation, position) in triples {
        tables.put_triple(Entity::try_from(on)?, Triple::new(User::try_from(who)?, operation, position))?;
    }
    Ok(())
}

/// The tables of case state S1.
pub fn s1() -> Result<Tables, Box<dyn Error>> {
    let mut tables = Tables::empty();
    put_users(&mut tables)?;
    put_entities(&mut tables)?;
    put_triples(&mut tables)?;
    Ok(tables)
}

/// The level of a rank with compartments.
fn level(rank: u32, compartments: u8) -> Result<Level, &'static str> {
    Level::new(rank, compartments).ok_or("no such rank")
}

fn main() -> Result<(), Box<dyn Error>> {
    let name = env::args().nth(1).unwrap_or_else(|| "examples/state.words".to_string());
    let tables = s1()?;
    println!("check {}", tables.check().map_or_else(Refusal::number, |()| 0));
    for (at, word) in tables.as_words().iter().enumerate().filter(|(_, word)| **word != 0) {
        println!("word {} is {}", at, word);
    }
    if tables.to_bytes() != fs::read(&name)? {
        return Err(format!("{} has others", name).into());
    }
    println!("{} has the same", name);
    Ok(())
}
