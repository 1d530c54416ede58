//! Texts that are requests and texts that are not, and rooms of every length.

use generate::layout::{entity, entity_base};
use ordinary::{read, script, write, Reply, Right, REQUEST_WORDS};

const UNTOUCHED: u32 = 77;
/// What is reported of a request that can't be read.
const UNREADABLE: &str = "answer=18\nheld=0\nmissed=0\n";
const TEXT: &str = "user=2\nop=10\nref=4.1\nref2=\na=3\nb=0\nc=0\n";
const LONGEST: &str = "user=4294967295\nop=4294967295\nref=4294967295.4294967295.4294967295.4294967295\n\
    ref2=4294967295.4294967295.4294967295.4294967295\na=4294967295\nb=4294967295\nc=4294967295\n";

/// Reads a text that is no request, and gives the line.
fn bad_line(text: &str) -> u32 {
    let mut words = [UNTOUCHED; REQUEST_WORDS];
    let reply = read::<Right>(text.as_bytes(), &mut words);
    assert_eq!((reply.answer, words), (18, [UNTOUCHED; REQUEST_WORDS]), "{:?}", text);
    reply.number
}

#[test]
fn lines_are_named() {
    let cases = [
        ("", 1),
        ("user=2\n", 2),
        (&TEXT[..TEXT.len() - 1], 7),
        (&TEXT[1..], 1),
        ("user=2\r\nop=10\n", 1),
        ("user=02\n", 1),
        ("user=00\n", 1),
        ("user=\n", 1),
        ("user=-1\n", 1),
        ("user=+1\n", 1),
        ("user= 1\n", 1),
        ("user=1 \n", 1),
        ("User=1\n", 1),
        ("user=4294967296\n", 1),
        ("user=99999999999999999999999999\n", 1),
        ("user=2\nop=10", 2),
        ("user=2\nop=10\nref=.\n", 3),
        ("user=2\nop=10\nref=1.\n", 3),
        ("user=2\nop=10\nref=.1\n", 3),
        ("user=2\nop=10\nref=1..1\n", 3),
        ("user=2\nop=10\nref=1.01\n", 3),
        ("user=2\nop=10\nref=1.1.1.1.1\n", 3),
        ("user=2\nop=10\nref=1.1.1.1.\n", 3),
        ("user=2\nop=10\nref=1.1.1.1\nref=\n", 4),
        ("user=2\nop=10\nref=\nref2=\nb=3\n", 5),
    ];
    for (text, line) in cases {
        assert_eq!(bad_line(text), line, "{:?}", text);
    }
    assert_eq!(bad_line(&[TEXT, "\n"].concat()), 8);
    assert_eq!(bad_line(&[TEXT, TEXT].concat()), 8);
}

/// Reads a text, and writes it again into rooms that are too short, exact and too long.
fn there_and_back(text: &str) -> [u32; REQUEST_WORDS] {
    let mut words = [UNTOUCHED; REQUEST_WORDS];
    assert_eq!(read::<Right>(text.as_bytes(), &mut words), Reply { answer: 0, number: 0 });
    for length in 0..text.len() + 3 {
        write_into(&words, text, length);
    }
    words
}

/// Writes words that have this text into a room of some length, of which it fills the front or nothing.
fn write_into(words: &[u32], text: &str, length: usize) {
    let need = text.len() as u32;
    let mut room = vec![b'x'; length];
    let reply = write::<Right>(words, &mut room);
    if length < text.len() {
        assert_eq!(reply, Reply { answer: 17, number: need });
        assert!(room.iter().all(|byte| *byte == b'x'));
    } else {
        assert_eq!(reply, Reply { answer: 0, number: need });
        assert_eq!(room, [text, &"x".repeat(length - text.len())].concat().into_bytes());
    }
}

#[test]
fn requests_go_there_and_back() {
    assert_eq!(there_and_back(TEXT), [2, 10, 2, 4, 1, 0, 0, 0, 0, 0, 0, 0, 3, 0, 0, 0]);
    let mut most = [u32::MAX; REQUEST_WORDS];
    most[2] = 4;
    most[7] = 4;
    most[15] = 0;
    assert_eq!(there_and_back(LONGEST), most);
}

#[test]
fn words_without_a_text_are_refused() {
    for (word, value) in [(2, 5), (7, u32::MAX), (3, 1), (6, 1), (8, 1), (11, 1), (15, 1)] {
        let mut request = [0; REQUEST_WORDS];
        request[word] = value;
        let mut room = [b'x'; 200];
        assert_eq!(write::<Right>(&request, &mut room), Reply { answer: 5, number: 0 });
        assert_eq!(write::<Right>(&request, &mut []), Reply { answer: 5, number: 0 });
        assert!(room.iter().all(|byte| *byte == b'x'));
    }
}

#[test]
fn lengths_are_looked_at_first() {
    for length in [0, 15, 17] {
        let mut words = vec![UNTOUCHED; length];
        assert_eq!(read::<Right>(TEXT.as_bytes(), &mut words), Reply { answer: 1, number: 0 });
        assert_eq!(read::<Right>(b"", &mut words), Reply { answer: 1, number: 0 });
        assert_eq!(write::<Right>(&words, &mut []), Reply { answer: 1, number: 0 });
        assert!(words.iter().all(|word| *word == UNTOUCHED));
    }
}

#[test]
fn a_script_without_tables_ends_at_what_cannot_be_read() {
    let refused = "answer=1\nheld=0\nmissed=0\n";
    let output = |state: &[u8], text: &str| String::from_utf8(script::<Right>(state, text.as_bytes())).unwrap();
    assert_eq!(output(&[], ""), "");
    assert_eq!(output(&[], "x"), UNREADABLE);
    for size in [0, 1, 9_215, 9_217] {
        let state = vec![0; size];
        assert_eq!(output(&state, &[TEXT, TEXT].concat()), refused.repeat(2));
        assert_eq!(output(&state, &[TEXT, "\n", TEXT].concat()), [refused, UNREADABLE].concat());
        assert_eq!(output(&state, &[TEXT, "user=2\nop=1"].concat()), [refused, UNREADABLE].concat());
    }
    assert_eq!(output(&[0; 9_216], TEXT), "answer=4\nheld=0\nmissed=0\n");
}

#[test]
fn a_script_to_bad_tables_is_refused_throughout() {
    // A user who is neither present nor absent; and S1 with a device above its maximum.
    let not_well_formed = [&[2; 1][..], &[0; 2303]].concat();
    let mut not_secure = generate::s1();
    not_secure[entity_base(2) + entity::MAXIMUM] = 256;
    for (tables, answer) in [(not_well_formed, 2), (not_secure, 3)] {
        let state: Vec<u8> = tables.iter().flat_map(|word| word.to_le_bytes()).collect();
        let refused = format!("answer={}\nheld=0\nmissed=0\n", answer);
        let output = |text: &str| String::from_utf8(script::<Right>(&state, text.as_bytes())).unwrap();
        assert_eq!(output(&TEXT.repeat(3)), refused.repeat(3));
        assert_eq!(output(&[TEXT, LONGEST, "x"].concat()), [&refused[..], &refused, UNREADABLE].concat());
        assert_eq!(output("x"), UNREADABLE);
        assert_eq!(output(""), "");
    }
}
