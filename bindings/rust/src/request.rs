//! A request: sixteen words, made from typed arguments, from words or from text.
mod making;

use crate::layout::{request, ENTRY_WORDS, REQUEST_WORDS, TEXT_MOST};
use crate::{words, BadLine, Operation, Reference, Refusal, User};

/// What a user asks of the desk: sixteen words [rule 5.1].
///
/// The functions named after the operations make requests of the right form. Any words at all can be a request too: the
/// desk refuses what makes no sense. So is a reference of no names refused, where the operation takes one [rule 5.4].
///
/// ```
/// use mms::{Operation, Reference, Request, Shown, User};
///
/// fn main() -> Result<(), Box<dyn std::error::Error>> {
///     let request = Request::show(User::try_from(2)?, &"4.1".parse()?, Shown::VALUE_AND_LABEL);
///     assert_eq!(request.as_words(), &[2, 10, 2, 4, 1, 0, 0, 0, 0, 0, 0, 0, 3, 0, 0, 0]);
///     assert_eq!(request.to_text()?, "user=2\nop=10\nref=4.1\nref2=\na=3\nb=0\nc=0\n");
///     assert_eq!(Request::from_text(request.to_text()?.as_bytes())?, request);
///     assert_eq!(request.operation(), Some(Operation::Show));
///     assert_eq!(request.second(), Some(Reference::NONE));
///     Ok(())
/// }
/// ```
#[derive(Clone, Copy, Debug, PartialEq, Eq, Hash, PartialOrd, Ord)]
#[repr(transparent)] // its words and nothing else, so that requests in a row are lent as words where they lie
pub struct Request {
    words: [u32; REQUEST_WORDS],
}

impl Request {
    /// The request of these words, whatever they are.
    pub const fn from_words(words: [u32; REQUEST_WORDS]) -> Request {
        Request { words }
    }

    /// Its words.
    pub const fn as_words(&self) -> &[u32; REQUEST_WORDS] {
        &self.words
    }

    /// The request of a text of seven lines [rule 11.4].
    ///
    /// # Errors
    ///
    /// The first line that is bad or missing, 1 to 7, or 8 for bytes behind the last.
    ///
    /// ```
    /// use mms::Request;
    ///
    /// fn main() -> Result<(), mms::BadLine> {
    ///     let request = Request::from_text(b"user=3\nop=12\nref=3\nref2=\na=0\nb=0\nc=0\n")?;
    ///     assert_eq!(request.as_words()[..4], [3, 12, 1, 3]);
    ///     let more = Request::from_text(b"user=3\nop=12\nref=3\nref2=\na=0\nb=0\nc=0\n\n");
    ///     assert_eq!(more.map_err(|bad| bad.line()), Err(8));
    ///     Ok(())
    /// }
    /// ```
    pub fn from_text(text: &[u8]) -> Result<Request, BadLine> {
        let mut words = [0; REQUEST_WORDS];
        match words::read(text, &mut words).result() {
            Ok(_) => Ok(Request { words }),
            Err(Refusal::NotARequest(line)) => Err(line),
            Err(other) => unreachable!("sixteen words were lent, and the reader answered {}", other),
        }
    }

    /// The text of the request [rule 11.3].
    ///
    /// # Errors
    ///
    /// [`Refusal::BadRequest`] where no text has these words: a length above four, a name word behind its reference or
    /// word 15 not 0.
    ///
    /// ```
    /// use mms::{Refusal, Request, User};
    ///
    /// fn main() -> Result<(), Box<dyn std::error::Error>> {
    ///     let text = Request::logout(User::try_from(2)?).to_text()?;
    ///     assert_eq!(text, "user=2\nop=13\nref=\nref2=\na=0\nb=0\nc=0\n");
    ///     let request = Request::from_words([2, 10, 5, 5, 0, 0, 0, 0, 0, 0, 0, 0, 3, 0, 0, 0]);
    ///     assert_eq!(request.to_text(), Err(Refusal::BadRequest));
    ///     Ok(())
    /// }
    /// ```
    pub fn to_text(&self) -> Result<String, Refusal> {
        let mut room = [0; TEXT_MOST];
        let length = words::write(&self.words, &mut room).result()?;
        Ok(room[..length as usize].iter().map(|&byte| char::from(byte)).collect())
    }

    /// The user who asks; `None` where the word is no user.
    pub const fn user(&self) -> Option<User> {
        User::from_number(self.words[request::USER])
    }

    /// The operation asked for; `None` where the word is none.
    pub const fn operation(&self) -> Option<Operation> {
        Operation::from_number(self.words[request::OPERATION])
    }

    /// The first reference; `None` where its words are none.
    pub fn first(&self) -> Option<Reference> {
        self.reference(request::FIRST)
    }

    /// The second reference; `None` where its words are none.
    pub fn second(&self) -> Option<Reference> {
        self.reference(request::SECOND)
    }

    /// The arguments a, b and c.
    pub const fn arguments(&self) -> [u32; 3] {
        let at = request::ARGUMENTS;
        [self.words[at], self.words[at + 1], self.words[at + 2]]
    }

    /// The reference whose length stands at this word.
    fn reference(&self, at: usize) -> Option<Reference> {
        let mut words = [0; ENTRY_WORDS];
        words.copy_from_slice(&self.words[at..at + ENTRY_WORDS]);
        Reference::from_words(words)
    }
}
