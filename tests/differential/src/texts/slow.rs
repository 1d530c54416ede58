//! The request text in the plainest way: a number is whatever prints as these digits, and a line is good if writing its value gives it back.

use generate::layout::{request, NAMES, REQUEST_WORDS};

pub const LINES: usize = 7;

/// The line that is named where bytes stand behind the last one.
pub const BEHIND: usize = LINES + 1;

/// What a line has behind its equals sign, and where in the words that goes.
#[derive(Clone, Copy)]
enum Place {
    Number(usize),
    Reference(usize),
}

const FORM: [(&str, Place); LINES] = [
    ("user", Place::Number(request::USER)),
    ("op", Place::Number(request::OPERATION)),
    ("ref", Place::Reference(request::FIRST)),
    ("ref2", Place::Reference(request::SECOND)),
    ("a", Place::Number(request::A)),
    ("b", Place::Number(request::B)),
    ("c", Place::Number(request::C)),
];

/// The words of a request text [rule 11.4]; else the first line that is bad or missing, or 8.
pub fn read(text: &[u8]) -> Result<[u32; REQUEST_WORDS], usize> {
    let mut words = [0; REQUEST_WORDS];
    let mut lines = text.split_inclusive(|byte| *byte == b'\n');
    for (line, (key, place)) in (1_usize..).zip(FORM) {
        let values = lines.next().and_then(|bytes| values(bytes, key, place)).ok_or(line)?;
        let first = match place {
            Place::Number(at) => at,
            Place::Reference(at) => {
                words[at] = values.len() as u32;
                at + 1
            }
        };
        words[first..first + values.len()].copy_from_slice(&values);
    }
    lines.next().map_or(Ok(words), |_| Err(BEHIND))
}

/// The numbers in a line, where it is good.
fn values(line: &[u8], key: &str, place: Place) -> Option<Vec<u32>> {
    let line = std::str::from_utf8(line).ok()?;
    let value = line.strip_suffix('\n')?.strip_prefix(key)?.strip_prefix('=')?;
    match place {
        Place::Number(_) => Some(vec![number(value)?]),
        Place::Reference(_) if value.is_empty() => Some(Vec::new()),
        Place::Reference(_) => {
            let names: Vec<u32> = value.split('.').map(number).collect::<Option<_>>()?;
            (names.len() <= NAMES as usize).then(|| names)
        }
    }
}

/// A number that prints as just this: the library alone would take a sign and leading zeros too.
fn number(digits: &str) -> Option<u32> {
    digits.parse().ok().filter(|number: &u32| number.to_string() == digits)
}

/// The text of sixteen words, where they have one [rule 11.3].
pub fn write(words: &[u32]) -> Option<Vec<u8>> {
    let lines: Option<Vec<String>> =
        FORM.iter().map(|(key, place)| Some(format!("{}={}\n", key, value(words, *place)?))).collect();
    lines.filter(|_| words[request::SPARE] == 0).map(|lines| lines.concat().into_bytes())
}

/// What stands behind the equals sign; nothing can where a name word behind a reference's length is not 0.
fn value(words: &[u32], place: Place) -> Option<String> {
    let at = match place {
        Place::Number(at) => return Some(words[at].to_string()),
        Place::Reference(at) => at,
    };
    let names = &words[at + 1..=at + NAMES as usize];
    let (used, unused) = (names.get(..words[at] as usize)?, &names[words[at] as usize..]);
    let used: Vec<String> = used.iter().map(u32::to_string).collect();
    unused.iter().all(|name| *name == 0).then(|| used.join("."))
}

#[cfg(test)]
mod tests {
    use super::*;

    const SHOW: &str = "user=2\nop=10\nref=4.1\nref2=\na=3\nb=0\nc=4294967295\n";
    const WORDS: [u32; REQUEST_WORDS] = [2, 10, 2, 4, 1, 0, 0, 0, 0, 0, 0, 0, 3, 0, u32::MAX, 0];

    /// The line that is bad once a part of the good text is replaced.
    fn bad_line(part: &str, by: &str) -> usize {
        assert!(SHOW.contains(part));
        read(SHOW.replacen(part, by, 1).as_bytes()).expect_err("a damaged text")
    }

    #[test]
    fn a_text_and_its_words() {
        assert_eq!(read(SHOW.as_bytes()), Ok(WORDS));
        assert_eq!(write(&WORDS), Some(SHOW.as_bytes().to_vec()));
    }

    #[test]
    fn the_first_bad_line_is_named() {
        assert_eq!(read(b""), Err(1));
        assert_eq!(bad_line("user=2", "user=02"), 1);
        assert_eq!(bad_line("op=10", "op=+10"), 2);
        assert_eq!(bad_line("4.1", "4..1"), 3);
        assert_eq!(bad_line("4.1", "1.2.3.4.5"), 3);
        assert_eq!(bad_line("ref2=", "ref=2"), 4);
        assert_eq!(bad_line("a=3\n", "a=3\r\n"), 5);
        assert_eq!(bad_line("b=0", "b="), 6);
        assert_eq!(bad_line("4294967295", "4294967296"), 7);
        assert_eq!(bad_line("5\n", "5"), 7);
        assert_eq!(bad_line("5\n", "5\n\0"), 8);
    }

    #[test]
    fn words_without_a_text() {
        for (at, word) in [(request::SPARE, 1), (request::FIRST, 5), (request::FIRST + 3, 1), (request::SECOND + 4, 7)]
        {
            let mut words = WORDS;
            words[at] = word;
            assert_eq!(write(&words), None);
        }
    }
}
