//! The text in the plainest way: a number is whatever prints as these digits, and line after line is held against what is due.
use super::Due;
use crate::layout::{
    entity, entity_base, kind, parts_of, triple, user, user_base, ENTITIES, PLACES, TABLE_WORDS, TRIPLES, USERS,
};
use crate::view::{entity_record, triples, user_record};

/// What is wrong with a line [rule 16.3].
#[derive(Clone, Copy, Debug, PartialEq, Eq)]
pub enum Reason {
    /// The text ends before it.
    Missing,
    /// The text ends in it.
    Unended,
    /// It has another key.
    Key,
    /// It has fewer numbers or more.
    Parts,
    /// What stands for a number is none.
    NoNumber,
    Zeros,
    Bits,
    /// The number is none that it may have.
    Range,
    /// The record before has the same number or a higher one.
    Rising,
    /// All parts of a triple are 0.
    Nil,
}

impl Reason {
    pub const ALL: [Reason; 10] = [
        Reason::Missing,
        Reason::Unended,
        Reason::Key,
        Reason::Parts,
        Reason::NoNumber,
        Reason::Zeros,
        Reason::Bits,
        Reason::Range,
        Reason::Rising,
        Reason::Nil,
    ];
}

/// The first line that is bad or missing, from 1 on: what was due there, what is wrong, and the tables of the lines before.
#[derive(Clone, Debug, PartialEq, Eq)]
pub struct Bad {
    pub line: usize,
    pub due: Due,
    pub reason: Reason,
    pub before: Vec<u32>,
}

/// The text of well-formed tables [rules 16.1, 16.2]; of others something like it.
pub fn write(tables: &[u32]) -> Vec<u8> {
    let mut text = String::new();
    for number in 1..=USERS {
        let record = user_record(tables, number);
        if record[user::PRESENT] != 0 {
            let words = &record[user::CLEARANCE..=user::MISSED];
            text +=
                &format!("user={}\nclearance={}\nauthorised={}\ncurrent={}\n", number, words[0], words[1], words[2]);
            text += &format!("device={}\nheld={}\noperation={}\nmissed={}\n", words[3], words[4], words[5], words[6]);
        }
    }
    for number in 1..=ENTITIES {
        let record = entity_record(tables, number);
        if record[entity::KIND] != kind::ABSENT {
            text += &format!("entity={}\n{}{}{}", number, words_of(record), places_of(record), triples_of(record));
        }
    }
    text.into_bytes()
}

/// The lines of an entity's first seven words.
fn words_of(record: &[u32]) -> String {
    let [kind, types, level, mark] =
        [record[entity::KIND], record[entity::TYPE], record[entity::LEVEL], record[entity::MARK]];
    let [value, releaser, maximum] = [record[entity::VALUE], record[entity::RELEASER], record[entity::MAXIMUM]];
    let first = format!("kind={}\ntype={}\nlevel={}\nmark={}\n", kind, types, level, mark);
    first + &format!("value={}\nreleaser={}\nmaximum={}\n", value, releaser, maximum)
}

/// The lines of its places.
fn places_of(record: &[u32]) -> String {
    let used = record[entity::USED];
    let lines = (0..used.min(PLACES) as usize)
        .map(|place| format!("content={}.{}\n", record[entity::CONTENTS + place], record[entity::SHOWN + place]));
    format!("places={}\n{}", used, lines.collect::<String>())
}

/// The lines of its triples.
fn triples_of(record: &[u32]) -> String {
    let all = triples(record);
    let lines = all.iter().map(|word| {
        let [who, operation, position] = parts_of(*word);
        format!("triple={}.{}.{}\n", who, operation, position)
    });
    format!("triples={}\n{}", all.len(), lines.collect::<String>())
}

/// The tables of a text that keeps the line rules, well-formed or not [rule 16.5]; else its first bad line.
pub fn read(text: &[u8]) -> Result<Vec<u32>, Bad> {
    let mut reader = Reader { tables: vec![0; TABLE_WORDS], due: Due::User, user: 0, entity: 0, left: 0, count: 0 };
    let lines: Vec<&[u8]> = text.split_inclusive(|byte| *byte == b'\n').collect();
    for (line, bytes) in (1_usize..).zip(&lines) {
        if let Err((due, reason)) = reader.take(bytes) {
            return Err(Bad { line, due, reason, before: reader.tables });
        }
    }
    match reader.due {
        due if due.may_end() => Ok(reader.tables),
        due => Err(Bad { line: lines.len() + 1, due, reason: Reason::Missing, before: reader.tables }),
    }
}

/// What was read, and what is due.
struct Reader {
    tables: Vec<u32>,
    due: Due,
    /// The last user and the last entity, 0 where none came.
    user: u32,
    entity: u32,
    /// Lines of a row that are still to come, of so many.
    left: u32,
    count: u32,
}

impl Reader {
    /// Takes one line; else says what was due and why this is not it.
    fn take(&mut self, line: &[u8]) -> Result<(), (Due, Reason)> {
        let due = match self.due {
            Due::User if line.starts_with(b"entity=") => Due::Entity,
            due => due,
        };
        let numbers = numbers(line, due).map_err(|reason| (due, reason))?;
        self.due = self.store(due, &numbers).map_err(|reason| (due, reason))?;
        Ok(())
    }

    /// Stores the numbers of a line, if they are such as it may have; gives what is due then.
    fn store(&mut self, due: Due, numbers: &[u32]) -> Result<Due, Reason> {
        let number = numbers[0];
        match due {
            Due::User => {
                self.user = rising(number, self.user, USERS)?;
                self.tables[user_base(number) + user::PRESENT] = 1;
                Ok(Due::OfUser(0))
            }
            Due::OfUser(line) => {
                self.tables[user_base(self.user) + user::CLEARANCE + line] = number;
                Ok(Due::behind_user_word(line))
            }
            Due::Entity => {
                self.entity = rising(number, self.entity, ENTITIES)?;
                Ok(Due::KIND)
            }
            Due::OfEntity(line) => {
                unless(due == Due::KIND && number == 0, Reason::Range)?;
                self.tables[entity_base(self.entity) + entity::KIND + line] = number;
                if due == Due::PLACES {
                    return self.row(number, PLACES, Due::Content, Due::Triples);
                }
                Ok(Due::OfEntity(line + 1))
            }
            Due::Content => {
                let at = self.next_in_row();
                self.tables[at + entity::CONTENTS] = number;
                self.tables[at + entity::SHOWN] = numbers[1];
                Ok(if self.left > 0 { Due::Content } else { Due::Triples })
            }
            Due::Triples => self.row(number, TRIPLES, Due::Triple, Due::Entity),
            Due::Triple => {
                unless(number > 65_535 || numbers[1] > 255 || numbers[2] > 255, Reason::Range)?;
                unless(numbers == [0, 0, 0], Reason::Nil)?;
                let at = self.next_in_row();
                self.tables[at + entity::TRIPLES] = triple(number, numbers[1], numbers[2]);
                Ok(if self.left > 0 { Due::Triple } else { Due::Entity })
            }
        }
    }

    /// A row of so many lines; gives what is due: its first line, or what follows it.
    fn row(&mut self, count: u32, most: u32, first: Due, behind: Due) -> Result<Due, Reason> {
        unless(count > most, Reason::Range)?;
        self.count = count;
        self.left = count;
        Ok(if count > 0 { first } else { behind })
    }

    /// Where the entity's record starts, and as many words further as lines of the row came before; this one is there now.
    fn next_in_row(&mut self) -> usize {
        let came = self.count - self.left;
        self.left -= 1;
        entity_base(self.entity) + came as usize
    }
}

/// The number of a record, where it is one and higher than the last.
fn rising(number: u32, last: u32, most: u32) -> Result<u32, Reason> {
    unless(number < 1 || number > most, Reason::Range)?;
    unless(number <= last, Reason::Rising)?;
    Ok(number)
}

/// Fails for this reason where that holds.
fn unless(holds: bool, reason: Reason) -> Result<(), Reason> {
    if holds {
        Err(reason)
    } else {
        Ok(())
    }
}

/// The numbers in a line with this key.
fn numbers(line: &[u8], due: Due) -> Result<Vec<u32>, Reason> {
    let line = line.strip_suffix(b"\n").ok_or(Reason::Unended)?;
    let value = line.strip_prefix(due.key().as_bytes()).and_then(|rest| rest.strip_prefix(b"=")).ok_or(Reason::Key)?;
    let parts: Vec<&[u8]> = value.split(|byte| *byte == b'.').collect();
    unless(due.parts() > 1 && parts.len() != due.parts(), Reason::Parts)?;
    if due.parts() == 1 {
        return Ok(vec![number(value)?]);
    }
    parts.into_iter().map(number).collect()
}

/// A number that prints as just this: the library alone would take a sign and leading zeros too.
fn number(digits: &[u8]) -> Result<u32, Reason> {
    unless(digits.is_empty() || !digits.iter().all(u8::is_ascii_digit), Reason::NoNumber)?;
    let digits = std::str::from_utf8(digits).map_err(|_| Reason::NoNumber)?;
    let number: u32 = digits.parse().map_err(|_| Reason::Bits)?;
    unless(number.to_string() != digits, Reason::Zeros)?;
    Ok(number)
}

#[cfg(test)]
mod tests {
    use super::*;
    use crate::tables_text::damages;
    use crate::{dice_for, s1};

    /// A user who holds nothing, and a container with one place and one triple.
    const TEXT: &str = "user=3\nclearance=513\nauthorised=6\ncurrent=0\ndevice=0\nheld=0\noperation=0\nmissed=0\n\
        entity=4\nkind=2\ntype=0\nlevel=513\nmark=1\nvalue=0\nreleaser=0\nmaximum=0\nplaces=1\ncontent=5.0\n\
        triples=1\ntriple=2.10.1\n";

    /// What is wrong once a part of the text is replaced: the line, what was due there and the reason.
    fn wrong(part: &str, by: &str) -> (usize, Due, Reason) {
        assert!(TEXT.contains(part));
        let bad = read(TEXT.replacen(part, by, 1).as_bytes()).expect_err("a damaged text");
        (bad.line, bad.due, bad.reason)
    }

    #[test]
    fn a_text_and_its_tables() {
        let tables = read(TEXT.as_bytes()).expect("a good text");
        assert_eq!(user_record(&tables, 3)[..8], [1, 513, 6, 0, 0, 0, 0, 0]);
        assert_eq!(entity_record(&tables, 4)[..9], [2, 0, 513, 1, 0, 0, 0, 1, 5]);
        assert_eq!(triples(entity_record(&tables, 4)), [triple(2, 10, 1)]);
        assert_eq!(write(&tables), TEXT.as_bytes());
        assert_eq!(read(&write(&s1())), Ok(s1()));
        assert_eq!(read(b""), Ok(vec![0; TABLE_WORDS]));
    }

    #[test]
    fn the_first_bad_line_is_named_with_the_reason() {
        assert_eq!(wrong("triple=2.10.1\n", ""), (20, Due::Triple, Reason::Missing));
        assert_eq!(wrong("triple=2.10.1\n", "triple=2.10.1"), (20, Due::Triple, Reason::Unended));
        assert_eq!(wrong("held=0\n", ""), (6, Due::OfUser(4), Reason::Key));
        assert_eq!(wrong("content=5.0", "content=5"), (18, Due::Content, Reason::Parts));
        assert_eq!(wrong("value=0", "value=-0"), (14, Due::VALUE, Reason::NoNumber));
        assert_eq!(wrong("value=0\n", "value=0\r\n"), (14, Due::VALUE, Reason::NoNumber));
        assert_eq!(wrong("level=513", "level=0513"), (12, Due::LEVEL, Reason::Zeros));
        assert_eq!(wrong("clearance=513", "clearance=4294967296"), (2, Due::OfUser(0), Reason::Bits));
        assert_eq!(wrong("user=3", "user=17"), (1, Due::User, Reason::Range));
        assert_eq!(wrong("kind=2", "kind=0"), (10, Due::KIND, Reason::Range));
        assert_eq!(wrong("places=1", "places=9"), (17, Due::PLACES, Reason::Range));
        assert_eq!(wrong("2.10.1", "65536.10.1"), (20, Due::Triple, Reason::Range));
        assert_eq!(wrong("2.10.1", "0.0.0"), (20, Due::Triple, Reason::Nil));
        let twice = [TEXT, &TEXT[TEXT.find("entity").unwrap_or(0)..]].concat();
        let bad = read(twice.as_bytes()).expect_err("an entity twice");
        assert_eq!((bad.line, bad.due, bad.reason), (21, Due::Entity, Reason::Rising));
    }

    /// What is read is written again as it was, whatever was done to it.
    #[test]
    fn a_text_comes_back_from_its_tables() {
        let mut good = 0;
        for number in 0..50 {
            let mut dice = dice_for(1, number);
            let text = write(&crate::tables(&mut dice));
            for (name, act) in damages() {
                let at = dice.below(text.len() as u32) as usize;
                let mut damaged = text.clone();
                act(&mut dice, &mut damaged, at);
                if let Ok(tables) = read(&damaged) {
                    assert_eq!(write(&tables), damaged, "{} at {}", name, at);
                    good += 1;
                }
            }
        }
        assert!(good > 0);
    }
}
