//! Tables as lines that people read [rule 16], by the proved writer and reader.
use super::Tables;
use crate::layout::TABLES_TEXT_MOST;
use crate::{words, Refusal};
use std::{fmt, str::FromStr};

impl Tables {
    /// The text of the tables [rule 16.4]: for each user and then for each entity that is present a line with the
    /// number and one for each word, as `key=value`. Tables that are well-formed and not secure have one too.
    ///
    /// # Errors
    ///
    /// [`Refusal::NotWellFormed`] where the tables are that.
    ///
    /// ```
    /// use mms::{Level, Refusal, Roles, Tables, User};
    ///
    /// fn main() -> Result<(), Box<dyn std::error::Error>> {
    ///     let mut tables = Tables::empty();
    ///     assert_eq!(tables.to_text()?, "");
    ///     tables.put_user(User::try_from(3)?, Level::try_from(513)?, Roles::DOWNGRADER | Roles::RELEASER);
    ///     let text = tables.to_text()?;
    ///     assert!(text.starts_with("user=3\nclearance=513\nauthorised=6\ncurrent=0\n"));
    ///     assert_eq!(Tables::from_text(text.as_bytes())?, tables);
    ///
    ///     tables.as_words_mut()[0] = 7;
    ///     assert_eq!(tables.to_text(), Err(Refusal::NotWellFormed));
    ///     Ok(())
    /// }
    /// ```
    pub fn to_text(&self) -> Result<String, Refusal> {
        let mut room = vec![0; TABLES_TEXT_MOST];
        let length = words::write_tables(&self.words[..], &mut room).result()?;
        room.truncate(length as usize);
        Ok(String::from_utf8(room).expect("keys, digits, dots and ends of lines"))
    }

    /// The tables of a text [rule 16.5]. There is one text for each tables: what is read here is written again byte for
    /// byte.
    ///
    /// # Errors
    ///
    /// [`Refusal::NotARequest`] with the first line that is bad or missing; or, where all lines are good,
    /// [`Refusal::NotWellFormed`] where what they tell is not well-formed.
    ///
    /// ```
    /// use mms::{Refusal, Tables};
    ///
    /// fn main() {
    ///     assert_eq!(Tables::from_text(b""), Ok(Tables::empty()));
    ///     // the line of the clearance is there, and the next one is missing
    ///     match Tables::from_text(b"user=3\nclearance=513\n") {
    ///         Err(Refusal::NotARequest(bad)) => assert_eq!(bad.line(), 3),
    ///         other => panic!("{:?}", other),
    ///     }
    ///     let beyond = b"user=3\nclearance=5000\nauthorised=0\ncurrent=0\ndevice=0\nheld=0\noperation=0\nmissed=0\n";
    ///     assert_eq!(Tables::from_text(beyond), Err(Refusal::NotWellFormed));
    /// }
    /// ```
    pub fn from_text(text: &[u8]) -> Result<Tables, Refusal> {
        let mut tables = Tables::empty();
        words::read_tables(text, &mut tables.words[..]).result()?;
        Ok(tables)
    }
}

/// The tables' text, as [`Tables::to_text`] gives it.
///
/// Tables that are not well-formed have no text. What is written for them is the sentence of
/// [`Refusal::NotWellFormed`], so that nothing panics and a log still says what happened; no text of tables begins so,
/// and it cannot be read back. Who has to know asks [`Tables::to_text`].
///
/// ```
/// use mms::{Refusal, Tables};
///
/// fn main() -> Result<(), Refusal> {
///     let mut tables = Tables::empty();
///     assert_eq!(tables.to_string(), "");
///     tables.as_words_mut()[0] = 7;
///     assert_eq!(tables.to_string(), "the tables are not well-formed");
///     assert!(tables.to_string().parse::<Tables>().is_err());
///     Ok(())
/// }
/// ```
impl fmt::Display for Tables {
    fn fmt(&self, f: &mut fmt::Formatter<'_>) -> fmt::Result {
        match self.to_text() {
            Ok(text) => f.write_str(&text),
            Err(refusal) => refusal.fmt(f),
        }
    }
}

/// As [`Tables::from_text`].
impl FromStr for Tables {
    type Err = Refusal;

    fn from_str(text: &str) -> Result<Tables, Refusal> {
        Tables::from_text(text.as_bytes())
    }
}
