//! References: how a request names an entity.
use crate::layout::{ENTRY_WORDS, NAMES};
use crate::{Entity, Request};
use std::cmp::Ordering;
use std::{error::Error, fmt, str::FromStr};

/// A list of up to four names. The first is the number of an entity, each one after it a place, 1 to 8, of the entity
/// reached so far [rule 5.2]. Any words may stand as names: where they lead is for the desk to say.
///
/// As text the names are joined by dots. References are ordered as in the disclosure list: by the first name that
/// differs, and each before those that continue it [rule 10.5].
///
/// ```
/// use mms::{Entity, Reference};
///
/// fn main() -> Result<(), Box<dyn std::error::Error>> {
///     let inside: Reference = "4.1".parse()?;
///     assert_eq!(inside.names(), [4, 1]);
///     assert_eq!(inside.to_string(), "4.1");
///
///     let direct = Reference::from(Entity::try_from(4)?);
///     assert_eq!(direct.then(1), Some(inside));
///     assert!(direct < inside && inside < "4.2".parse()? && inside < "5".parse()?);
///     assert_eq!(Reference::new(&[1, 2, 3, 4, 5]), None);
///     assert!("04.1".parse::<Reference>().is_err());
///     Ok(())
/// }
/// ```
#[derive(Clone, Copy, Debug, Default, PartialEq, Eq, Hash)]
pub struct Reference {
    // the length, then the names, with zeros behind: as in a request and in an entry of a list
    words: [u32; ENTRY_WORDS],
}

impl Reference {
    /// The reference of no names, for an operand that an operation does not take.
    pub const NONE: Reference = Reference { words: [0; ENTRY_WORDS] };

    /// The reference of these names; `None` where they are more than four.
    pub fn new(names: &[u32]) -> Option<Reference> {
        let mut words = [0; ENTRY_WORDS];
        words.get_mut(1..=names.len())?.copy_from_slice(names);
        words[0] = names.len() as u32; // at most four
        Some(Reference { words })
    }

    /// The reference that goes on from this one to a place; `None` where it has four names already.
    pub fn then(&self, place: u32) -> Option<Reference> {
        let mut words = self.words;
        *words.get_mut(1 + self.names().len())? = place;
        words[0] += 1;
        Some(Reference { words })
    }

    /// Its names.
    pub fn names(&self) -> &[u32] {
        &self.words[1..][..self.words[0] as usize]
    }

    /// Its length and its names, with zeros behind: the five words that it is in a request and in a list.
    pub const fn as_words(&self) -> &[u32; ENTRY_WORDS] {
        &self.words
    }

    /// The reference of five such words; `None` where the length is above four, or a word behind the names is not 0.
    pub fn from_words(words: [u32; ENTRY_WORDS]) -> Option<Reference> {
        let length = words[0] as usize;
        if length <= NAMES && words[1 + length..].iter().all(|&word| word == 0) {
            Some(Reference { words })
        } else {
            None
        }
    }
}

impl From<Entity> for Reference {
    fn from(entity: Entity) -> Reference {
        Reference { words: [1, entity.number(), 0, 0, 0] }
    }
}

impl PartialOrd for Reference {
    fn partial_cmp(&self, other: &Reference) -> Option<Ordering> {
        Some(self.cmp(other))
    }
}

impl Ord for Reference {
    fn cmp(&self, other: &Reference) -> Ordering {
        self.names().cmp(other.names())
    }
}

impl fmt::Display for Reference {
    fn fmt(&self, f: &mut fmt::Formatter<'_>) -> fmt::Result {
        let names: Vec<String> = self.names().iter().map(u32::to_string).collect();
        f.pad(&names.join("."))
    }
}

/// A text that is no reference.
#[derive(Clone, Copy, Debug, PartialEq, Eq, Hash)]
pub struct NotAReference;

impl fmt::Display for NotAReference {
    fn fmt(&self, f: &mut fmt::Formatter<'_>) -> fmt::Result {
        f.write_str("a reference is up to four numbers of 32 bits, without leading zeros, with a dot between two")
    }
}

impl Error for NotAReference {}

impl FromStr for Reference {
    type Err = NotAReference;

    // The proved reader reads it, as the one operand of a request. A line end in the text makes more than seven lines,
    // and is refused.
    fn from_str(text: &str) -> Result<Reference, NotAReference> {
        let request = format!("user=0\nop=0\nref={}\nref2=\na=0\nb=0\nc=0\n", text);
        let request = Request::from_text(request.as_bytes()).map_err(|_| NotAReference)?;
        request.first().ok_or(NotAReference)
    }
}
