//! The twenty requests as words, and requests as text both ways.
mod case;

use case::{level, reference, roles, user};
use mms::{BadLine, Operation, Position, Reference, Refusal, Request, Shown, Sort, Triple, TEXT_MOST};

/// Each operation, with what its request must be as text, but for the user and the operation.
fn requests() -> [(Operation, Request, [&'static str; 5]); 20] {
    let (by, of) = (user(2), user(16));
    let (first, second) = (&reference("4.1.8.2"), &reference("7"));
    let triple = Triple::new(of, Operation::Copy, Position::Second);
    let held = Refusal::LevelOrRoles;
    [
        (Operation::Create, Request::create(by, first, Sort::Draft, level(1023)), ["4.1.8.2", "", "3", "1023", "0"]),
        (Operation::Delete, Request::delete(by, first), ["4.1.8.2", "", "0", "0", "0"]),
        (Operation::Move, Request::move_into(by, first, second), ["4.1.8.2", "7", "0", "0", "0"]),
        (Operation::Edit, Request::edit(by, first, u32::MAX), ["4.1.8.2", "", "4294967295", "0", "0"]),
        (Operation::Copy, Request::copy(by, second, first), ["7", "4.1.8.2", "0", "0", "0"]),
        (Operation::Level, Request::set_level(by, first, level(513)), ["4.1.8.2", "", "513", "0", "0"]),
        (Operation::Mark, Request::set_mark(by, second, true), ["7", "", "1", "0", "0"]),
        (Operation::Grant, Request::grant(by, first, triple), ["4.1.8.2", "", "16", "5", "2"]),
        (Operation::Revoke, Request::revoke(by, first, triple), ["4.1.8.2", "", "16", "5", "2"]),
        (Operation::Show, Request::show(by, first, Shown::ALL), ["4.1.8.2", "", "7", "0", "0"]),
        (Operation::Clear, Request::clear(by), ["", "", "0", "0", "0"]),
        (Operation::Login, Request::login(by, second), ["7", "", "0", "0", "0"]),
        (Operation::Logout, Request::logout(by), ["", "", "0", "0", "0"]),
        (Operation::CurrentRoles, Request::set_current_roles(by, of, roles(255)), ["", "", "16", "255", "0"]),
        (Operation::Clearance, Request::set_clearance(by, of, level(257)), ["", "", "16", "257", "0"]),
        (Operation::AuthorisedRoles, Request::set_authorised_roles(by, of, roles(6)), ["", "", "16", "6", "0"]),
        (Operation::Maximum, Request::set_maximum(by, second, level(1)), ["7", "", "1", "0", "0"]),
        (Operation::DeviceLevel, Request::set_device_level(by, second, level(2)), ["7", "", "2", "0", "0"]),
        (Operation::Release, Request::release(by, first), ["4.1.8.2", "", "0", "0", "0"]),
        (Operation::Acknowledge, Request::acknowledge(by, held, 65_535), ["", "", "13", "65535", "0"]),
    ]
}

#[test]
fn each_operation_has_its_request_and_its_text() {
    let operations: Vec<Operation> = requests().iter().map(|each| each.0).collect();
    assert_eq!(operations, Operation::ALL);
    for (operation, request, [first, second, a, b, c]) in requests() {
        let number = operation.number();
        let text = format!("user=2\nop={}\nref={}\nref2={}\na={}\nb={}\nc={}\n", number, first, second, a, b, c);
        assert_eq!(request.to_text(), Ok(text.clone()));
        assert_eq!(Request::from_text(text.as_bytes()), Ok(request));
        assert_eq!((request.user(), request.operation()), (Some(user(2)), Some(operation)));
        assert_eq!((request.first(), request.second()), (Some(reference(first)), Some(reference(second))));
        assert_eq!(request.arguments().map(|word| word.to_string()), [a, b, c]);
    }
}

#[test]
fn the_longest_text_has_room() {
    let mut words = [u32::MAX; 16];
    words[2] = 4;
    words[7] = 4;
    words[15] = 0;
    let text = Request::from_words(words).to_text().expect("a text");
    assert_eq!(text.len(), TEXT_MOST);
    assert_eq!(Request::from_text(text.as_bytes()), Ok(Request::from_words(words)));
}

#[test]
fn words_without_a_text_are_refused() {
    for (word, number) in [(2, 5), (7, u32::MAX), (3, 1), (11, 1), (15, 1)] {
        let mut words = [0; 16];
        words[word] = number;
        let request = Request::from_words(words);
        assert_eq!(request.to_text(), Err(Refusal::BadRequest), "word {}", word);
        assert!(word == 15 || request.first().is_none() || request.second().is_none(), "word {}", word);
    }
}

#[test]
fn the_line_that_fails_is_named() {
    let good = Request::clear(user(2)).to_text().expect("a text");
    let lines: Vec<&str> = good.split_inclusive('\n').collect();
    for bad in 0..lines.len() {
        let cut: String = lines[..bad].concat();
        let spaced: String =
            lines.iter().enumerate().map(|(i, line)| [&" "[usize::from(i != bad)..], *line].concat()).collect();
        for text in [cut, spaced] {
            assert_eq!(Request::from_text(text.as_bytes()).map_err(BadLine::line), Err(bad as u32 + 1), "{:?}", text);
        }
    }
    assert_eq!(Request::from_text((good + "\n").as_bytes()).map_err(BadLine::line), Err(8));
    assert_eq!(Request::from_text(&[0xFF; 200]).map_err(BadLine::line), Err(1));
}

#[test]
fn references_are_read_as_in_requests() {
    for (text, names) in
        [("", &[][..]), ("5", &[5]), ("0", &[0]), ("4.1", &[4, 1]), ("4294967295.0.0.1", &[u32::MAX, 0, 0, 1])]
    {
        let read: Reference = text.parse().expect(text);
        assert_eq!(read.names(), names);
        assert_eq!(read.to_string(), text);
        assert_eq!(Reference::new(names), Some(read));
        assert_eq!(Reference::from_words(*read.as_words()), Some(read));
    }
    let bad = [
        "1.2.3.4.5",
        "04",
        "+4",
        " 4",
        "4 ",
        "4.",
        ".4",
        "4..1",
        "4294967296",
        "x",
        "4\n",
        "4\nref2=\na=0\nb=0\nc=0\n",
        "\u{664}",
    ];
    for text in bad {
        assert!(text.parse::<Reference>().is_err(), "{:?}", text);
    }
}

#[test]
fn references_grow_to_four_names() {
    let mut grown = Reference::NONE;
    for name in 1..=4 {
        grown = grown.then(name).expect("four names");
    }
    assert_eq!(grown, reference("1.2.3.4"));
    assert_eq!(grown.then(5), None);
    assert_eq!(Reference::from_words([5, 1, 2, 3, 4]), None);
    assert_eq!(Reference::from_words([u32::MAX, 1, 2, 3, 4]), None);
    assert_eq!(Reference::from_words([1, 1, 0, 0, 4]), None);
}

#[test]
fn references_are_ordered_as_the_list_is() {
    let ordered = ["", "2", "2.0", "4", "4.1", "4.1.2", "4.2", "5", "10"].map(reference);
    assert!(ordered.windows(2).all(|two| two[0] < two[1]));
}
