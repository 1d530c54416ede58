//! A load as bytes, so that it can be kept in a file: who counts the instructions of calls need not count those that finding their load takes.
use crate::load::{Load, Request};
use generate::layout::{REQUEST_WORDS, TABLE_WORDS};

/// Bytes of a word, the lowest first.
const WORD_BYTES: usize = 4;

/// The bytes of a load: each of its parts as a number of things, and then these.
pub fn bytes_of(load: &Load) -> Vec<u8> {
    let mut bytes = Vec::new();
    put(&mut bytes, &load.tables, |bytes, tables| put_words(bytes, tables));
    put(&mut bytes, &load.places, |bytes, &place| put_words(bytes, &[place as u32]));
    put(&mut bytes, &load.requests, |bytes, request| put_words(bytes, request));
    put(&mut bytes, &load.users, |bytes, &user| put_words(bytes, &[user]));
    put(&mut bytes, &load.texts, |bytes, text| put(bytes, text, |bytes, &byte| bytes.push(byte)));
    put(&mut bytes, &load.run, |bytes, &word| put_words(bytes, &[word]));
    bytes
}

/// Puts so many things last, each by itself.
fn put<T>(bytes: &mut Vec<u8>, things: &[T], each: fn(&mut Vec<u8>, &T)) {
    put_words(bytes, &[things.len() as u32]);
    things.iter().for_each(|thing| each(bytes, thing));
}

/// Puts words last.
fn put_words(bytes: &mut Vec<u8>, words: &[u32]) {
    bytes.extend(words.iter().flat_map(|word| word.to_le_bytes()));
}

/// The load of these bytes; none where they are not those of a load.
pub fn load_of(bytes: &[u8]) -> Option<Load> {
    let mut left = Left { bytes };
    let load = Load {
        tables: left.things(|left| left.words(TABLE_WORDS))?,
        places: left.things(|left| Some(left.number()? as usize))?,
        requests: left.things(|left| Request::try_from(left.words(REQUEST_WORDS)?).ok())?,
        users: left.things(Left::number)?,
        texts: left.things(|left| left.number().and_then(|length| Some(left.next(length as usize)?.to_vec())))?,
        run: left.things(Left::number)?,
    };
    Some(load).filter(|load| left.bytes.is_empty() && load.places.iter().all(|&place| place < load.tables.len()))
}

/// The word of four bytes.
fn word(bytes: &[u8]) -> u32 {
    u32::from_le_bytes([bytes[0], bytes[1], bytes[2], bytes[3]])
}

/// The bytes that are still to be read.
struct Left<'a> {
    bytes: &'a [u8],
}

impl<'a> Left<'a> {
    /// The next so many bytes.
    fn next(&mut self, count: usize) -> Option<&'a [u8]> {
        let next = self.bytes.get(..count)?;
        self.bytes = &self.bytes[count..];
        Some(next)
    }

    /// The next word.
    fn number(&mut self) -> Option<u32> {
        self.next(WORD_BYTES).map(word)
    }

    /// The next so many words.
    fn words(&mut self, count: usize) -> Option<Vec<u32>> {
        Some(self.next(count * WORD_BYTES)?.chunks_exact(WORD_BYTES).map(word).collect())
    }

    /// The next number, and then so many things.
    fn things<T>(&mut self, each: fn(&mut Left<'a>) -> Option<T>) -> Option<Vec<T>> {
        (0..self.number()?).map(|_| each(self)).collect()
    }
}

#[cfg(test)]
mod tests {
    use super::*;

    /// A load with something in each of its parts.
    fn some_load() -> Load {
        Load {
            tables: vec![generate::s1()],
            places: vec![0, 0],
            requests: vec![[7; REQUEST_WORDS]],
            users: vec![2, 3],
            texts: vec![b"user=2\n".to_vec(), Vec::new()],
            run: vec![8; 2 * REQUEST_WORDS],
        }
    }

    /// A load comes back from its bytes as it was.
    #[test]
    fn a_load_comes_back() {
        assert_eq!(load_of(&bytes_of(&some_load())), Some(some_load()));
        assert_eq!(load_of(&bytes_of(&Load::default())), Some(Load::default()));
    }

    /// Bytes that are cut short, have others after them or speak of tables that are not there are no load.
    #[test]
    fn other_bytes_are_no_load() {
        let bytes = bytes_of(&some_load());
        assert!((0..bytes.len()).all(|length| load_of(&bytes[..length]).is_none()));
        assert_eq!(load_of(&[&bytes[..], &[0]].concat()), None);
        assert_eq!(load_of(&bytes_of(&Load { places: vec![1], ..some_load() })), None);
    }
}
