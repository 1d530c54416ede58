//! Tables as text: what they are written as, which lines are bad, and that a text and its tables belong together.

use generate::layout::{entity, entity_base, user, user_base, TABLE_WORDS};
use generate::longest::{longest_text, TABLES_TEXT_MOST};
use generate::tables_text::{self as slow, damages};
use generate::{dice_for, full, s1, Dice};
use ordinary::{check, read_tables, write_tables, Reply, Right};

const UNTOUCHED: u32 = 77;
/// S1 and the office of the guide, as words and as text.
const EXAMPLES: [(&[u8], &str); 2] = [
    (include_bytes!("../../../examples/state.words"), include_str!("../../../examples/state.text")),
    (include_bytes!("../../../examples/office.words"), include_str!("../../../examples/office.text")),
];
const S1: &str = EXAMPLES[0].1;
const S1_LINES: u32 = 103;
/// Tables that are made by dice, and damages of each kind to a text of theirs.
const TABLES: u64 = 60;
const DAMAGES: u32 = 3;

/// The words of a state file.
fn words(bytes: &[u8]) -> Vec<u32> {
    bytes.chunks_exact(4).map(|four| u32::from_le_bytes([four[0], four[1], four[2], four[3]])).collect()
}

/// What is answered to a text, and its tables where it is 0. Else the words that were lent must be as before.
fn read(text: &[u8]) -> Result<Vec<u32>, Reply> {
    let mut tables = vec![UNTOUCHED; TABLE_WORDS];
    let reply = read_tables::<Right>(text, &mut tables);
    if reply.answer == 0 {
        assert_eq!(reply.number, 0);
        return Ok(tables);
    }
    assert!(tables.iter().all(|word| *word == UNTOUCHED));
    Err(reply)
}

/// The refusal of a line.
fn line(number: u32) -> Result<Vec<u32>, Reply> {
    Err(Reply { answer: 18, number })
}

const NOT_WELL_FORMED: Reply = Reply { answer: 2, number: 0 };

/// S1's text with the first of these parts replaced.
fn changed(part: &str, by: &str) -> String {
    assert!(S1.contains(part), "{:?}", part);
    S1.replacen(part, by, 1)
}

/// Writes tables that have this text into a room of some length, of which it fills the front or nothing.
fn write_into(tables: &[u32], text: &[u8], length: usize) {
    let number = text.len() as u32;
    let mut room = vec![b'x'; length];
    let reply = write_tables::<Right>(tables, &mut room);
    if length < text.len() {
        assert_eq!(reply, Reply { answer: 17, number });
        assert!(room.iter().all(|byte| *byte == b'x'));
    } else {
        assert_eq!(reply, Reply { answer: 0, number });
        assert_eq!(room, [text, &vec![b'x'; length - text.len()]].concat());
    }
}

#[test]
fn the_examples_are_their_words() {
    for (state, text) in EXAMPLES {
        let tables = words(state);
        assert_eq!(read(text.as_bytes()), Ok(tables.clone()));
        (0..text.len() + 3).for_each(|length| write_into(&tables, text.as_bytes(), length));
    }
    assert_eq!(words(EXAMPLES[0].0), s1());
    assert_eq!((S1.len(), S1.matches('\n').count()), (987, S1_LINES as usize));
}

#[test]
fn a_text_of_no_record_is_empty() {
    write_into(&[0; TABLE_WORDS], b"", 0);
    write_into(&[0; TABLE_WORDS], b"", 5);
    assert_eq!(read(b""), Ok(vec![0; TABLE_WORDS]));
}

#[test]
fn lengths_are_looked_at_first() {
    let refused = Reply { answer: 1, number: 0 };
    for length in [0, 1, TABLE_WORDS - 1, TABLE_WORDS + 1] {
        let mut tables = vec![UNTOUCHED; length];
        for text in [S1, "", "user=0\n", &changed("level=1023", "level=5000")] {
            assert_eq!(read_tables::<Right>(text.as_bytes(), &mut tables), refused);
        }
        assert!(tables.iter().all(|word| *word == UNTOUCHED));
        assert_eq!(write_tables::<Right>(&tables, &mut []), refused);
        assert_eq!(write_tables::<Right>(&vec![0; length], &mut [0; 9]), refused);
    }
}

#[test]
fn only_well_formed_tables_are_written_and_room_is_asked_for_last() {
    let mut insecure = s1();
    insecure[entity_base(2) + entity::MAXIMUM] = 256;
    assert_eq!(check::<Right>(&insecure).answer, 3);
    let text = changed("maximum=512", "maximum=256");
    write_into(&insecure, text.as_bytes(), text.len());
    assert_eq!(read(text.as_bytes()), Ok(insecure));
    for (word, value) in [(0, 2), (user_base(4) + user::CLEARANCE, 1), (entity_base(7) + entity::USED, 9)] {
        let mut tables = s1();
        tables[word] = value;
        let mut room = vec![b'x'; TABLES_TEXT_MOST];
        assert_eq!(write_tables::<Right>(&tables, &mut room), NOT_WELL_FORMED);
        assert_eq!(write_tables::<Right>(&tables, &mut []), NOT_WELL_FORMED);
        assert!(room.iter().all(|byte| *byte == b'x'));
    }
}

/// Parts of S1's text and what stands for them, with the line that is bad then.
const BAD: &[(&str, &str, u32)] = &[
    // keys in their order and no others
    ("user=1\n", "User=1\n", 1),
    ("user=1\n", "\nuser=1\n", 1),
    ("clearance=1023\n", "", 2),
    ("clearance=1023\nauthorised=7\n", "authorised=7\nclearance=1023\n", 2),
    ("clearance=1023\n", "clearance=1023\nclearance=1023\n", 3),
    ("authorised=7", "authorized=7", 3),
    ("missed=0\n", "missed=0\n\n", 9),
    ("missed=0\nentity=1", "missed=0\n\nentity=1", 25),
    ("entity=2\n", "user=4\nentity=2\n", 35),
    ("triples=0\nentity=2\n", "entity=2\n", 34),
    ("content=5.0\ncontent=6.0\ntriples=0\n", "triples=0\ncontent=5.0\ncontent=6.0\n", 65),
    // numbers
    ("clearance=1023", "clearance=", 2),
    ("clearance=1023", "clearance=01023", 2),
    ("clearance=1023", "clearance=+1023", 2),
    ("clearance=1023", "clearance=-0", 2),
    ("clearance=1023", "clearance= 1023", 2),
    ("clearance=1023", "clearance=1023 ", 2),
    ("clearance=1023", "clearance=1023\r", 2),
    ("clearance=1023", "clearance=1,023", 2),
    ("clearance=1023", "clearance=10.23", 2),
    ("clearance=1023", "clearance=4294967296", 2),
    ("clearance=1023", "clearance=99999999999999999999", 2),
    ("clearance=1023", "clearance=00", 2),
    // numbers of records
    ("user=1\n", "user=0\n", 1),
    ("user=1\n", "user=2\n", 9),
    ("user=1\n", "user=3\n", 9),
    ("user=1\n", "user=17\n", 1),
    ("user=3\n", "user=2\n", 17),
    ("entity=1\n", "entity=0\n", 25),
    ("entity=1\n", "entity=2\n", 35),
    ("entity=7\n", "entity=65\n", 91),
    ("entity=7\n", "entity=6\n", 91),
    // kinds, places and triples
    ("kind=3", "kind=0", 26),
    ("places=2", "places=9", 64),
    ("places=2", "places=1", 66),
    ("places=2", "places=3", 67),
    ("places=2", "places=8", 67),
    ("content=5.0", "content=5", 65),
    ("content=5.0", "content=5.0.0", 65),
    ("content=5.0", "content=.0", 65),
    ("content=5.0", "content=5.", 65),
    ("content=5.0", "content=5.00", 65),
    ("content=6.0", "content=6.4294967296", 66),
    ("triples=1\n", "triples=0\n", 55),
    ("triples=1\n", "triples=2\n", 56),
    ("triples=1\n", "triples=9\n", 54),
    ("triple=3.12.1\n", "triple=3.12\n", 55),
    ("triple=3.12.1\n", "triple=3.12.1.0\n", 55),
    ("triple=3.12.1\n", "triple=3..1\n", 55),
    ("triple=3.12.1\n", "triple=0.0.0\n", 55),
    ("triple=3.12.1\n", "triple=65536.12.1\n", 55),
    ("triple=3.12.1\n", "triple=3.256.1\n", 55),
    ("triple=3.12.1\n", "triple=3.12.256\n", 55),
];

#[test]
fn bad_lines_are_named() {
    for (part, by, number) in BAD {
        assert_eq!(read(changed(part, by).as_bytes()), line(*number), "{:?} for {:?}", by, part);
    }
}

#[test]
fn what_is_missing_is_one_more_than_the_last() {
    let lines: Vec<&str> = S1.split_inclusive('\n').collect();
    for count in 0..lines.len() {
        let text = lines[..count].concat();
        let is_whole = lines[count].starts_with("user=") || lines[count].starts_with("entity=");
        match read(text.as_bytes()) {
            Err(Reply { answer: 18, number }) => assert!(!is_whole && number == count as u32 + 1, "{} lines", count),
            _ => assert!(is_whole, "{} lines", count),
        }
    }
    for length in 1..S1.len() {
        if !S1[..length].ends_with('\n') {
            let number = S1[..length].matches('\n').count() as u32 + 1;
            assert_eq!(read(&S1.as_bytes()[..length]), line(number), "{} bytes", length);
        }
    }
}

#[test]
fn bytes_behind_the_last_record_are_a_bad_line() {
    for behind in ["\n", "x", "\0", "user=4\n", "entity=7\n", "triple=1.1.1\n", S1] {
        assert_eq!(read([S1, behind].concat().as_bytes()), line(S1_LINES + 1), "{:?}", behind);
    }
}

#[test]
fn what_the_lines_allow_is_judged_as_tables() {
    let allowed = [
        ("clearance=1023", "clearance=4294967295"),
        ("level=513", "level=5000"),
        ("kind=1\n", "kind=4294967295\n"),
        ("content=5.0", "content=60.0"),
        ("content=5.0", "content=0.0"),
        ("content=5.0", "content=5.1"),
        ("content=6.0", "content=5.0"),
        ("content=5.0", "content=4294967295.4294967295"),
        ("triple=3.12.1", "triple=65535.255.255"),
        ("triple=3.12.1", "triple=0.0.1"),
        ("triple=3.12.1", "triple=0.1.0"),
        ("triple=3.12.1", "triple=1.0.0"),
        ("triple=2.5.1", "triple=2.10.1"),
        ("device=1\n", "device=0\n"),
        ("device=1\n", "device=2\n"),
    ];
    for (part, by) in allowed {
        assert_eq!(read(changed(part, by).as_bytes()), Err(NOT_WELL_FORMED), "{:?} for {:?}", by, part);
    }
}

#[test]
fn a_bad_line_comes_before_the_tables() {
    let text = changed("level=1023", "level=5000");
    assert_eq!(read([&text, "x"].concat().as_bytes()), line(S1_LINES + 1));
    assert_eq!(read(&text.as_bytes()[..text.len() - 1]), line(S1_LINES));
    assert_eq!(read(text.replace("triples=3", "triples=4").as_bytes()), line(S1_LINES + 1));
}

/// Tables by dice, the fullest and the longest among them.
fn made(number: u64, dice: &mut Dice) -> Vec<u32> {
    match number {
        1 => longest_text(dice),
        2 => full::fullest(dice),
        3 => full::full(dice),
        _ => generate::tables(dice),
    }
}

#[test]
fn tables_go_there_and_back() {
    for number in 1..=TABLES {
        let mut dice = dice_for(1, number);
        let tables = made(number, &mut dice);
        let text = slow::write(&tables);
        assert!(text.len() <= TABLES_TEXT_MOST);
        for length in [0, text.len() - 1, text.len(), text.len() + 7] {
            write_into(&tables, &text, length);
        }
        assert_eq!(read(&text), Ok(tables));
    }
}

#[test]
fn the_longest_text_is_the_longest() {
    for seed in 0..20 {
        let tables = longest_text(&mut Dice::new(seed));
        assert_eq!(check::<Right>(&tables).answer, 0);
        let mut room = vec![b'x'; TABLES_TEXT_MOST];
        let number = TABLES_TEXT_MOST as u32;
        assert_eq!(write_tables::<Right>(&tables, &mut room), Reply { answer: 0, number });
        assert_eq!(room, slow::write(&tables));
    }
}

/// What a text must be answered, by the slow reader and the check.
fn due(text: &[u8]) -> Result<Vec<u32>, Reply> {
    match slow::read(text) {
        Err(bad) => line(bad.line as u32),
        Ok(tables) if check::<Right>(&tables).answer == 2 => Err(NOT_WELL_FORMED),
        Ok(tables) => Ok(tables),
    }
}

#[test]
fn damaged_texts_are_answered_as_the_plain_reader_says() {
    let mut answers = [0; 19];
    for number in 1..=TABLES {
        let mut dice = dice_for(2, number);
        let good = slow::write(&made(number, &mut dice));
        for (name, act) in damages() {
            for _ in 0..DAMAGES {
                let at = dice.below(good.len() as u32) as usize;
                let mut text = good.clone();
                act(&mut dice, &mut text, at);
                let given = read(&text);
                assert_eq!(given, due(&text), "{} at {} of table {}", name, at, number);
                match given {
                    Ok(tables) => write_into(&tables, &text, text.len()),
                    Err(reply) => answers[reply.answer as usize] += 1,
                }
            }
        }
    }
    assert!(answers[2] > 0 && answers[18] > 0, "{:?}", answers);
}
