//! The tables, owned, and the desk's calls on them.
mod building;
mod reading;
mod text;
pub use reading::Notice;

use crate::layout::{ENTITY_WORDS, ENTRY_WORDS, STATE_BYTES, TABLE_WORDS, USERS, USER_WORDS, WORD_BYTES};
use crate::words::{self, Answer};
use crate::{Entity, Reference, Refusal, Request, User};
use std::fmt;

/// The desk's whole memory: 2,304 words for 16 users and 64 entities [rule 2.1].
///
/// Any words can be tables. The calls look at them first: on tables that are not well-formed and secure every call is
/// refused.
///
/// ```
/// use mms::{Entity, Level, Operation, Position, Refusal, Request, Roles, Shown, Tables, Triple, User};
///
/// fn main() -> Result<(), Box<dyn std::error::Error>> {
///     let (user, device) = (User::try_from(2)?, Entity::try_from(2)?);
///     let (folder, finding) = (Entity::try_from(4)?, Entity::try_from(5)?);
///     let mut tables = Tables::empty();
///     tables.put_device(device, Level::try_from(512)?, Level::try_from(512)?);
///     tables.put_user(user, Level::try_from(256)?, Roles::NONE);
///     tables.put_on(user, device, Roles::NONE);
///     tables.put_container(folder, Level::try_from(513)?);
///     tables.put_mark(folder, true);
///     tables.put_object(finding, Level::try_from(256)?);
///     tables.put_triple(finding, Triple::new(user, Operation::Show, Position::First))?;
///     tables.put_inside(finding, folder)?;
///     tables.check()?;
///
///     // through the marked folder, which is above the user's clearance, and directly
///     let inside = Request::show(user, &"4.1".parse()?, Shown::VALUE_AND_LABEL);
///     assert_eq!(tables.step(&inside), Err(Refusal::Marked));
///     let direct = Request::show(user, &finding.into(), Shown::VALUE_AND_LABEL);
///     assert_eq!(tables.step(&direct), Ok(()));
///     assert_eq!(tables.shown_on(device), [(finding, Shown::VALUE_AND_LABEL)]);
///     Ok(())
/// }
/// ```
#[derive(Clone, PartialEq, Eq, Hash)]
pub struct Tables {
    words: Box<[u32; TABLE_WORDS]>,
}

impl Tables {
    /// Tables with no user and no entity, which are well-formed and secure.
    pub fn empty() -> Tables {
        Tables { words: Box::new([0; TABLE_WORDS]) }
    }

    /// The tables of these words, whatever they are.
    ///
    /// # Errors
    ///
    /// [`Refusal::BadLength`] where they are not 2,304.
    ///
    /// ```
    /// use mms::{Refusal, Tables};
    ///
    /// fn main() {
    ///     assert_eq!(Tables::from_words(&[0; 2304]), Ok(Tables::empty()));
    ///     assert_eq!(Tables::from_words(&[0; 2303]), Err(Refusal::BadLength));
    ///     // words that are no tables are found out by the calls
    ///     assert_eq!(Tables::from_words(&[7; 2304]).and_then(|tables| tables.check()), Err(Refusal::NotWellFormed));
    /// }
    /// ```
    pub fn from_words(words: &[u32]) -> Result<Tables, Refusal> {
        let mut tables = Tables::empty();
        if words.len() != TABLE_WORDS {
            return Err(Refusal::BadLength);
        }
        tables.words.copy_from_slice(words);
        Ok(tables)
    }

    /// The tables of a state file: each word is four bytes, the lowest first [rule 12.1].
    ///
    /// # Errors
    ///
    /// [`Refusal::BadLength`] where the bytes are not 9,216.
    ///
    /// ```
    /// use mms::{Refusal, Tables};
    ///
    /// fn main() -> Result<(), Refusal> {
    ///     let tables = Tables::from_bytes(&[0; 9216])?;
    ///     assert_eq!(tables.to_bytes(), [0; 9216]);
    ///     assert_eq!(Tables::from_bytes(b"short"), Err(Refusal::BadLength));
    ///     Ok(())
    /// }
    /// ```
    pub fn from_bytes(bytes: &[u8]) -> Result<Tables, Refusal> {
        let mut tables = Tables::empty();
        if bytes.len() != STATE_BYTES {
            return Err(Refusal::BadLength);
        }
        for (word, four) in tables.words.iter_mut().zip(bytes.chunks_exact(WORD_BYTES)) {
            *word = u32::from_le_bytes([four[0], four[1], four[2], four[3]]);
        }
        Ok(tables)
    }

    /// The 9,216 bytes of a state file with these tables.
    pub fn to_bytes(&self) -> Vec<u8> {
        self.words.iter().flat_map(|word| word.to_le_bytes()).collect()
    }

    /// The words.
    pub fn as_words(&self) -> &[u32; TABLE_WORDS] {
        &self.words
    }

    /// The words, to be changed in any way: what comes of it the calls judge.
    pub fn as_words_mut(&mut self) -> &mut [u32; TABLE_WORDS] {
        &mut self.words
    }

    /// The state check [rule 8.5]: whether the tables are well-formed and secure.
    ///
    /// # Errors
    ///
    /// [`Refusal::NotWellFormed`] or, where they are well-formed, [`Refusal::NotSecure`].
    pub fn check(&self) -> Result<(), Refusal> {
        words::check(&self.words[..]).result().map(drop)
    }

    /// One request [rules 6 to 8]. Accepted, it has its effect.
    ///
    /// # Errors
    ///
    /// The lowest of refusals 2 to 16 that applies. With 5 to 16 it is added to the requester's [notice](Notice), and
    /// held there if none was; with 2 to 4 everything stays as it was.
    pub fn step(&mut self, request: &Request) -> Result<(), Refusal> {
        words::step(&mut self.words[..], request.as_words()).result().map(drop)
    }

    /// Requests in order, each with the answer that [`step`](Tables::step) would give it on what those before it left.
    /// Tables and answers are those of as many steps, and so they are wherever the requests are cut into several runs;
    /// but the tables are checked once. A refused request does not end the run.
    ///
    /// ```
    /// use mms::{Level, Refusal, Request, Roles, Tables, User};
    ///
    /// fn main() -> Result<(), Box<dyn std::error::Error>> {
    ///     let (user, nobody) = (User::try_from(2)?, User::try_from(3)?);
    ///     let mut tables = Tables::empty();
    ///     tables.put_user(user, Level::LOWEST, Roles::NONE);
    ///     // the user is logged off, and acknowledges what comes of it
    ///     let read = Request::acknowledge(user, Refusal::NotLoggedOn, 1);
    ///     let answers = tables.run(&[Request::clear(user), Request::clear(nobody), read]);
    ///     assert_eq!(answers, [Err(Refusal::NotLoggedOn), Err(Refusal::UnknownRequester), Ok(())]);
    ///     assert_eq!(tables.notice(user), None);
    ///
    ///     // on tables that are not well-formed every request is refused
    ///     tables.as_words_mut()[0] = 7;
    ///     assert_eq!(tables.run(&[read, read]), [Err(Refusal::NotWellFormed); 2]);
    ///     Ok(())
    /// }
    /// ```
    pub fn run(&mut self, requests: &[Request]) -> Vec<Result<(), Refusal>> {
        let mut answers = vec![0; requests.len()];
        self.run_into(requests, &mut answers).expect("there is a place for each request");
        answers.into_iter().map(|no| Answer { no, number: 0 }.result().map(drop)).collect()
    }

    /// The same run with its answers as numbers, 0 for accepted, at the front of places that are lent; those behind
    /// stay as they were.
    ///
    /// # Errors
    ///
    /// [`Refusal::BadLength`] where there are fewer places than requests. Tables and places stay as they were.
    ///
    /// ```
    /// use mms::{Refusal, Request, Tables, User};
    ///
    /// fn main() -> Result<(), Box<dyn std::error::Error>> {
    ///     let requests = [Request::clear(User::try_from(1)?); 2];
    ///     let mut answers = [77; 3];
    ///     assert_eq!(Tables::empty().run_into(&requests, &mut answers[..1]), Err(Refusal::BadLength));
    ///     assert_eq!(answers, [77; 3]);
    ///     Tables::empty().run_into(&requests, &mut answers)?;
    ///     // there is no user 1 in empty tables
    ///     assert_eq!(answers, [4, 4, 77]);
    ///     Ok(())
    /// }
    /// ```
    pub fn run_into(&mut self, requests: &[Request], answers: &mut [u32]) -> Result<(), Refusal> {
        words::run(&mut self.words[..], words::of(requests), answers).result().map(drop)
    }

    /// The disclosure list [rule 10]: every reference by which a show of value and label to this user would be
    /// accepted, or refused for a full screen only.
    ///
    /// # Errors
    ///
    /// Refusals 2 and 3 of the tables, 4 where the user is absent, and 6 where the user is logged off.
    ///
    /// ```
    /// use mms::{Entity, Level, Operation, Position, Roles, Tables, Triple, User};
    ///
    /// fn main() -> Result<(), Box<dyn std::error::Error>> {
    ///     let (user, device, object) = (User::try_from(1)?, Entity::try_from(1)?, Entity::try_from(5)?);
    ///     let mut tables = Tables::empty();
    ///     tables.put_device(device, Level::HIGHEST, Level::HIGHEST);
    ///     tables.put_user(user, Level::HIGHEST, Roles::NONE);
    ///     tables.put_on(user, device, Roles::NONE);
    ///     tables.put_object(object, Level::LOWEST);
    ///     assert_eq!(tables.list(user)?, []);
    ///     tables.put_triple(object, Triple::new(user, Operation::Show, Position::First))?;
    ///     assert_eq!(tables.list(user)?, ["5".parse()?]);
    ///     Ok(())
    /// }
    /// ```
    pub fn list(&self, user: User) -> Result<Vec<Reference>, Refusal> {
        let entries = match self.list_into(user, &mut []) {
            Err(Refusal::TooShort { need }) => need as usize,
            asked => return asked.map(|_| Vec::new()),
        };
        let mut room = vec![0; entries * ENTRY_WORDS];
        self.list_into(user, &mut room)?;
        Ok(room.chunks_exact(ENTRY_WORDS).map(entry).collect())
    }

    /// The same list as entries of five words at the front of a room; gives how many there are.
    ///
    /// # Errors
    ///
    /// As for [`list`](Tables::list), and [`Refusal::TooShort`] with the entries that there would have to be room for.
    /// The room stays as it was.
    ///
    /// ```
    /// use mms::{Refusal, Tables, User};
    ///
    /// fn main() -> Result<(), mms::OutOfRange> {
    ///     assert_eq!(Tables::empty().list_into(User::try_from(1)?, &mut []), Err(Refusal::UnknownRequester));
    ///     Ok(())
    /// }
    /// ```
    pub fn list_into(&self, user: User, room: &mut [u32]) -> Result<u32, Refusal> {
        words::list(&self.words[..], user.number(), room).result()
    }

    /// The words of a user's record.
    fn user_words(&self, user: User) -> &[u32] {
        &self.words[user_at(user)..][..USER_WORDS]
    }

    /// The same, to be changed.
    fn user_words_mut(&mut self, user: User) -> &mut [u32] {
        &mut self.words[user_at(user)..][..USER_WORDS]
    }

    /// The words of an entity's record.
    fn entity_words(&self, entity: Entity) -> &[u32] {
        &self.words[entity_at(entity)..][..ENTITY_WORDS]
    }

    /// The same, to be changed.
    fn entity_words_mut(&mut self, entity: Entity) -> &mut [u32] {
        &mut self.words[entity_at(entity)..][..ENTITY_WORDS]
    }
}

/// The reference of an entry that the list wrote.
fn entry(words: &[u32]) -> Reference {
    let words = words.try_into().expect("the room is cut into entries");
    Reference::from_words(words).expect("an entry is a length up to four, its names and zeros")
}

/// Where a user's record begins; users are numbered from 1.
fn user_at(user: User) -> usize {
    (user.number() as usize - 1) * USER_WORDS
}

/// Where an entity's record begins, behind all the users'.
fn entity_at(entity: Entity) -> usize {
    USERS * USER_WORDS + (entity.number() as usize - 1) * ENTITY_WORDS
}

/// The records that are not all zero, each with its words.
impl fmt::Debug for Tables {
    fn fmt(&self, f: &mut fmt::Formatter<'_>) -> fmt::Result {
        let users = User::all().map(|user| (format!("user {}", user), self.user_words(user)));
        let entities = Entity::all().map(|entity| (format!("entity {}", entity), self.entity_words(entity)));
        let in_use = users.chain(entities).filter(|(_, words)| words.iter().any(|&word| word != 0));
        f.debug_map().entries(in_use).finish()
    }
}
