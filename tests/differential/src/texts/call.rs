//! One call to both desks, and whether each did what the slow texts say, and nothing else.

use generate::layout::refusal;
use ordinary::Reply;

use crate::guarded::{Filler, Guarded};
use crate::side::Side;

/// So much of what was lent and left is told.
const TOLD: usize = 400;

/// What a desk was found to do otherwise.
pub struct Difference {
    /// Who, and in which call.
    pub place: String,
    /// All that is needed to see it again.
    pub details: String,
}

/// A sort of text: how its writer and its reader are asked, and what must come of it.
pub struct Sort {
    /// The two calls by name.
    pub names: [&'static str; 2],
    pub write: for<'a> fn(Side<'a>, &[u32], &mut [u8]) -> Reply,
    pub read: for<'a> fn(Side<'a>, &[u8], &mut [u32]) -> Reply,
    /// The text of these words, whatever the room; else the refusal.
    pub text_of: fn(&[u32]) -> Result<Vec<u8>, u32>,
    /// The words of a text, for so many words to be filled; else the refusal with its number.
    pub words_of: fn(&[u8], usize) -> Result<Vec<u32>, Reply>,
}

/// Words to be written as a text: the first so many of these are lent, the others stand behind, for whoever goes on.
pub struct Writing<'a> {
    pub sort: &'a Sort,
    pub words: &'a [u32],
    pub count: usize,
    pub room: usize,
}

impl Writing<'_> {
    /// What must be answered, and what must then stand at the front of the room.
    fn expected(&self) -> (Reply, Vec<u8>) {
        match (self.sort.text_of)(&self.words[..self.count]) {
            Err(answer) => (Reply { answer, number: 0 }, Vec::new()),
            Ok(text) => {
                let number = text.len() as u32;
                let fits = text.len() <= self.room;
                let answer = if fits { refusal::ACCEPTED } else { refusal::TOO_SHORT };
                (Reply { answer, number }, if fits { text } else { Vec::new() })
            }
        }
    }

    /// Asks all sides; the reply, where none differs.
    pub fn compare(&self, sides: &[Side]) -> Result<Reply, Difference> {
        let (expected, text) = self.expected();
        for side in sides {
            let mut words = Guarded::holding(self.words);
            let mut room = Guarded::room(self.room);
            let got = (self.sort.write)(*side, &words.lent()[..self.count], room.lent());
            if got != expected || !words.holds(self.words) || !begins_with(&room, &text) {
                let left = format!("in the room: \"{}\"", first(&room.words().escape_ascii().to_string()));
                return Err(difference(self.sort.names[0], *side, expected, got, &self.told(), &left));
            }
        }
        Ok(expected)
    }

    /// What was lent, in words.
    fn told(&self) -> String {
        let words = first(&format!("{:?}", self.words)).to_string();
        format!("room of {} bytes, {} of the words {}", self.room, self.count, words)
    }
}

/// Bytes to be read as a text; `behind` stands behind them, for whoever goes on, and is not lent.
pub struct Reading<'a> {
    pub sort: &'a Sort,
    pub text: &'a [u8],
    pub behind: &'a [u8],
    pub count: usize,
}

impl Reading<'_> {
    /// Asks all sides; the reply, where none differs.
    pub fn compare(&self, sides: &[Side]) -> Result<Reply, Difference> {
        self.compare_with((self.sort.words_of)(self.text, self.count), sides)
    }

    /// The same where it is known what the words must be, or the refusal with its number.
    pub fn compare_with(&self, due: Result<Vec<u32>, Reply>, sides: &[Side]) -> Result<Reply, Difference> {
        let (expected, words) = match due {
            Ok(words) => (Reply { answer: refusal::ACCEPTED, number: 0 }, words),
            Err(reply) => (reply, Vec::new()),
        };
        let whole = [self.text, self.behind].concat();
        for side in sides {
            let mut bytes = Guarded::holding(&whole);
            let mut room = Guarded::room(self.count);
            let got = (self.sort.read)(*side, &bytes.lent()[..self.text.len()], room.lent());
            if got != expected || !bytes.holds(&whole) || !begins_with(&room, &words) {
                let left = format!("in the words: {}", first(&format!("{:?}", room.words())));
                return Err(difference(self.sort.names[1], *side, expected, got, &self.told(), &left));
            }
        }
        Ok(expected)
    }

    /// What was lent, in words.
    fn told(&self) -> String {
        format!("{} words for the text \"{}\"", self.count, first(&self.text.escape_ascii().to_string()))
    }
}

/// The beginning of what there is to tell.
fn first(told: &str) -> &str {
    &told[..TOLD.min(told.len())]
}

/// Does this stand at the front of a room, and nothing new behind it or around it?
fn begins_with<T: Filler>(room: &Guarded<T>, front: &[T]) -> bool {
    room.words()[..front.len()] == *front && room.untouched_from(front.len())
}

/// The report on a side that replied, or left what it was lent, otherwise than expected.
fn difference(call: &str, side: Side, expected: Reply, got: Reply, case: &str, left: &str) -> Difference {
    let what = if got == expected {
        "the right answer, but what was lent holds something else than it must".to_string()
    } else {
        format!(
            "answer {} (number {}) instead of {} (number {})",
            got.answer, got.number, expected.answer, expected.number
        )
    };
    Difference { place: format!("{}, {}", side.name(), call), details: format!("{}\n  {}\n  {}", what, case, left) }
}
