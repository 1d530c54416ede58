//! The header for C gives the same names the same numbers and declares the same calls: each name that it has is compared,
//! and none is left out.
use mms::{Kind, Level, Operation, Refusal, Roles, Shown, Sort, Type, Who};
use std::collections::{BTreeMap, BTreeSet};
use std::fmt::Debug;

// the crate's own file, whose positions are not public
#[allow(dead_code)]
#[path = "../src/layout.rs"]
mod layout;

type Numbers = BTreeMap<String, u32>;
/// The parameters of each call, as Rust writes them.
type Calls = BTreeMap<String, Vec<String>>;

const HEADER: &str = include_str!("../../mms.h");
/// Where the crate declares the calls.
const WORDS: &str = include_str!("../src/words.rs");
/// What keeps the header from being read twice, the one name that is no number.
const GUARD: &str = "MMS_H";

/// The enumerators of the header, with their numbers.
fn enumerators() -> Numbers {
    let pieces = HEADER.split(|c: char| !(c.is_alphanumeric() || "_ =".contains(c)));
    let pairs = pieces.filter_map(|piece| piece.split_once(" = "));
    let pairs = pairs.filter(|(name, _)| name.trim().starts_with("MMS_"));
    pairs.map(|(name, number)| (name.trim().to_string(), number.trim().parse().expect(name))).collect()
}

/// Every name in capitals that the header speaks of.
fn spoken_of() -> BTreeSet<&'static str> {
    let words = HEADER.split(|c: char| !(c.is_alphanumeric() || c == '_'));
    words.filter(|word| word.starts_with("MMS_") && *word != GUARD).collect()
}

/// The name of a variant as the header writes it: `NotSecure` is `NOT_SECURE`.
fn in_capitals(variant: impl Debug) -> String {
    let mut name = String::new();
    for c in format!("{:?}", variant).chars().take_while(|c| c.is_alphanumeric()) {
        if c.is_uppercase() && !name.is_empty() {
            name.push('_');
        }
        name.push(c.to_ascii_uppercase());
    }
    name
}

/// Each of these with its number, named as in the header behind the prefix.
fn named<T: Copy + Debug>(prefix: &str, all: impl IntoIterator<Item = T>, number: impl Fn(T) -> u32) -> Numbers {
    all.into_iter().map(|one| (prefix.to_string() + &in_capitals(one), number(one))).collect()
}

/// Refusals, and the names of what requests and records speak of.
fn things() -> Numbers {
    let refusals = (1..=18).map(|number| Refusal::from_number(number, 1).expect("a refusal"));
    let mut numbers = named("MMS_", refusals, Refusal::number);
    numbers.extend(named("MMS_", Kind::ALL.iter().copied(), Kind::number));
    numbers.extend(named("MMS_", Type::ALL.iter().copied(), Type::number));
    numbers.extend(named("MMS_SORT_", Sort::ALL.iter().copied(), Sort::number));
    // in C, where all names are in one place, a level and a mark are things of the tables
    let (set, others): (Vec<Operation>, Vec<Operation>) =
        Operation::ALL.iter().partition(|one| matches!(one, Operation::Level | Operation::Mark));
    numbers.extend(named("MMS_SET_", set, Operation::number));
    numbers.extend(named("MMS_", others, Operation::number));
    numbers
}

/// Sums, ranges and sizes.
fn numbers_of_the_rules() -> Vec<(&'static str, u32)> {
    let who = |role| Who::with_role(role).expect("one role").number();
    vec![
        ("MMS_ACCEPTED", 0),
        ("MMS_ABSENT", 0),
        ("MMS_OFFICER", Roles::OFFICER.number()),
        ("MMS_DOWNGRADER", Roles::DOWNGRADER.number()),
        ("MMS_RELEASER", Roles::RELEASER.number()),
        ("MMS_WHO_OFFICER", who(Roles::OFFICER)),
        ("MMS_WHO_DOWNGRADER", who(Roles::DOWNGRADER)),
        ("MMS_WHO_RELEASER", who(Roles::RELEASER)),
        ("MMS_WHO_MOST", Who::all().last().map_or(0, Who::number)),
        ("MMS_SHOWN_VALUE", Shown::VALUE.number()),
        ("MMS_SHOWN_LABEL", Shown::LABEL.number()),
        ("MMS_SHOWN_ID", Shown::ID.number()),
        ("MMS_LEVEL_MOST", Level::HIGHEST.number()),
        ("MMS_ROLES_MOST", Roles::all().last().map_or(0, Roles::number)),
        ("MMS_MISSED_MOST", layout::MISSED_MOST),
    ]
}

/// Where the words stand, and how many there are.
fn positions() -> Vec<(&'static str, usize)> {
    use layout::{entity, request, user};
    vec![
        ("MMS_USERS", layout::USERS),
        ("MMS_USER_WORDS", layout::USER_WORDS),
        ("MMS_ENTITIES", layout::ENTITIES),
        ("MMS_ENTITY_WORDS", layout::ENTITY_WORDS),
        ("MMS_TABLE_WORDS", mms::TABLE_WORDS),
        ("MMS_STATE_BYTES", mms::STATE_BYTES),
        ("MMS_REQUEST_WORDS", mms::REQUEST_WORDS),
        ("MMS_NAMES", layout::NAMES),
        ("MMS_ENTRY_WORDS", mms::ENTRY_WORDS),
        ("MMS_PLACES", layout::ROW),
        ("MMS_TRIPLES", layout::ROW),
        ("MMS_TEXT_MOST", mms::TEXT_MOST),
        ("MMS_TABLES_TEXT_MOST", mms::TABLES_TEXT_MOST),
        ("MMS_REQUEST_USER", request::USER),
        ("MMS_REQUEST_OPERATION", request::OPERATION),
        ("MMS_REQUEST_FIRST", request::FIRST),
        ("MMS_REQUEST_SECOND", request::SECOND),
        ("MMS_REQUEST_A", request::ARGUMENTS),
        ("MMS_REQUEST_B", request::ARGUMENTS + 1),
        ("MMS_REQUEST_C", request::ARGUMENTS + 2),
        ("MMS_REQUEST_SPARE", request::SPARE),
        ("MMS_USER_PRESENT", user::PRESENT),
        ("MMS_USER_CLEARANCE", user::CLEARANCE),
        ("MMS_USER_AUTHORISED", user::AUTHORISED),
        ("MMS_USER_CURRENT", user::CURRENT),
        ("MMS_USER_DEVICE", user::DEVICE),
        ("MMS_USER_HELD", user::HELD),
        ("MMS_USER_HELD_OPERATION", user::HELD_OPERATION),
        ("MMS_USER_MISSED", user::MISSED),
        ("MMS_USER_SPARE", user::MISSED + 1),
        ("MMS_ENTITY_KIND", entity::KIND),
        ("MMS_ENTITY_TYPE", entity::TYPE),
        ("MMS_ENTITY_LEVEL", entity::LEVEL),
        ("MMS_ENTITY_MARK", entity::MARK),
        ("MMS_ENTITY_VALUE", entity::VALUE),
        ("MMS_ENTITY_RELEASER", entity::RELEASER),
        ("MMS_ENTITY_MAXIMUM", entity::MAXIMUM),
        ("MMS_ENTITY_USED", entity::USED),
        ("MMS_ENTITY_CONTENTS", entity::CONTENTS),
        ("MMS_ENTITY_SHOWN", entity::SHOWN),
        ("MMS_ENTITY_TRIPLES", entity::TRIPLES),
    ]
}

#[test]
fn every_name_of_the_header_has_its_number() {
    let mut numbers = things();
    numbers.extend(numbers_of_the_rules().into_iter().map(|(name, number)| (name.to_string(), number)));
    numbers.extend(positions().into_iter().map(|(name, at)| (name.to_string(), at as u32)));
    assert_eq!(enumerators(), numbers);
    assert_eq!(spoken_of(), numbers.keys().map(String::as_str).collect());
}

/// The calls that a source declares: each begins and ends so, with the rest of its name and the parameters between.
fn declared(source: &str, begins: &str, ends: &str, parameter: impl Fn(&str) -> String) -> Calls {
    let in_one_line = source.split_whitespace().collect::<Vec<_>>().join(" ");
    let declarations = in_one_line.split(begins).skip(1);
    let parts = declarations.map(|text| text.split_once(ends).expect("it ends").0.split_once('(').expect("parameters"));
    let in_rust = |list: &str| list.split(',').map(str::trim).filter(|one| !one.is_empty()).map(&parameter).collect();
    parts.map(|(name, list)| (name.to_string(), in_rust(list))).collect()
}

/// A parameter of C as Rust writes it: `const uint8_t *text` is `text: *const u8`.
fn in_rust(parameter: &str) -> String {
    let (sort, name) = parameter.split_at(parameter.rfind(|c: char| " *".contains(c)).expect("a type and a name") + 1);
    let sort = match sort.trim() {
        "size_t" => "usize",
        "uint32_t" => "u32",
        "uint32_t *" => "*mut u32",
        "const uint32_t *" => "*const u32",
        "uint8_t *" => "*mut u8",
        "const uint8_t *" => "*const u8",
        other => panic!("{} is the type of no parameter", other),
    };
    format!("{}: {}", name, sort)
}

#[test]
fn every_call_of_the_header_is_declared_in_the_crate_and_takes_the_same() {
    let calls = declared(HEADER, "uint64_t mms_", ");", in_rust);
    let names = ["check", "list", "read", "read_tables", "run", "step", "write", "write_tables"];
    assert_eq!(calls.keys().collect::<Vec<_>>(), names);
    assert_eq!(calls, declared(WORDS, "fn mms_", ") -> u64;", str::to_string));
}
