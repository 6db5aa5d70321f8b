//! The numbers and the words of include/plotvuga.h are the wrapper's: two doors to one library must not tell two
//! stories.

use plotvuga::{Kind, Refusal, Signature, Table, MOST_NEAREST, MOST_RECORDS, RECORD};
use std::collections::{BTreeMap, BTreeSet};

const HEADER: &str = include_str!("../../../include/plotvuga.h");

/// The text without its comments.
fn code(text: &str) -> String {
    let mut pieces = text.split("/*");
    let first = pieces.next().unwrap_or_default().to_string();
    pieces.fold(first, |code, piece| code + piece.split_once("*/").expect("every comment ends").1)
}

/// The prefix of all names of constants, which are told without it below.
const PREFIX: &str = "PLOTVUGA_";

fn bare(name: &str) -> &str {
    name.trim().strip_prefix(PREFIX).unwrap_or_else(|| panic!("another prefix: {name:?}"))
}

/// Every constant that stands in an enum, by its name.
fn constants() -> BTreeMap<String, u64> {
    let code = code(HEADER);
    let enums = code.split("enum").skip(1).filter_map(|rest| rest.split_once('{')?.1.split_once('}'));
    let entries = enums.flat_map(|(entries, _)| entries.split(','));
    let mut all = BTreeMap::new();
    for entry in entries {
        let (name, value) = entry.split_once('=').unwrap_or_else(|| panic!("no number: {entry:?}"));
        let number = |factor: &str| -> u64 { factor.trim().parse().unwrap_or_else(|_| panic!("no number: {entry:?}")) };
        let before = all.insert(bare(name).to_string(), value.split('*').map(number).product());
        assert_eq!(before, None, "{name} stands twice");
    }
    all
}

/// What is defined, by its name: the guard against being read twice, and the version.
fn defined() -> BTreeMap<String, String> {
    let code = code(HEADER);
    let lines = code.lines().filter_map(|line| line.strip_prefix("#define "));
    lines.map(|line| line.split_once(' ').unwrap_or((line, ""))).map(|(n, v)| (bare(n).into(), v.into())).collect()
}

/// The wrapper's numbers by the header's names.
fn wrapper() -> BTreeMap<String, u64> {
    let mut all = BTreeMap::from([
        ("RECORD", RECORD as u64),
        ("RECORDS", MOST_RECORDS as u64),
        ("SIGNATURE", Signature::BYTES as u64),
        ("NEAREST", MOST_NEAREST as u64),
        ("READINGS", u64::from(Kind::Readings.number())),
        ("FAULTS", u64::from(Kind::Faults.number())),
    ]);
    all.extend(Refusal::ALL.map(|refusal| (refusal.name(), u64::from(refusal.number()))));
    all.into_iter().map(|(name, number)| (name.to_string(), number)).collect()
}

#[test]
fn the_header_and_the_wrapper_have_the_same_numbers() {
    let mut header = constants();
    // What the wrapper says by its types and not by a number: done is no refusal, and the stack is the caller's.
    assert_eq!(header.remove("DONE"), Some(0));
    assert!(header.remove("STACK").is_some());
    header.remove("ARITY");
    assert_eq!(header, wrapper());
}

#[test]
fn every_name_of_the_header_is_an_enum_s_or_defined() {
    let code = code(HEADER);
    let end = |rest: &str| rest.find(|c: char| !(c.is_ascii_uppercase() || c == '_')).unwrap_or(rest.len());
    let named: BTreeSet<String> = code.split(PREFIX).skip(1).map(|rest| rest[..end(rest)].to_string()).collect();
    let known = constants().into_keys().chain(defined().into_keys()).collect();
    assert_eq!(named, known);
}

#[test]
fn the_header_and_the_wrapper_have_the_same_version() {
    let header = defined();
    let parts = ["MAJOR", "MINOR", "PATCH"].map(|part| header[&format!("VERSION_{part}")].clone());
    assert_eq!(parts.join("."), env!("CARGO_PKG_VERSION"));
}

/// What the header's function returns for each name: the strings after it, joined as C joins them.
fn texts() -> BTreeMap<String, String> {
    let code = code(HEADER);
    let body = code.split_once("switch").expect("a function of texts").1.split_once("\n}").expect("its end").0;
    let cases = body.split("case ").skip(1).map(|case| case.split("default").next().unwrap_or(case));
    let text = |case: &str| case.split('"').skip(1).step_by(2).collect::<String>();
    cases.map(|case| (bare(case.split_once(':').expect("a case has a name").0).to_string(), text(case))).collect()
}

#[test]
fn the_header_and_the_wrapper_have_the_same_texts() {
    let mut header = texts();
    // Done is no refusal, so the wrapper has no text for it.
    assert!(header.remove("DONE").is_some());
    let wrapper = Refusal::ALL.map(|refusal| (refusal.name().to_string(), refusal.text().to_string()));
    assert_eq!(header, BTreeMap::from(wrapper));
    // A sentence, to follow a word of the caller's, and not the same for two.
    let different: BTreeSet<&String> = header.values().collect();
    assert_eq!(different.len(), Refusal::ALL.len());
    for text in different {
        assert!(text.starts_with(|c: char| c.is_ascii_lowercase()) && !text.ends_with('.'), "{text}");
    }
}

/// The wrapper takes an arity as a number, so its end is seen by calling.
#[test]
fn the_largest_arity_is_the_header_s() {
    let most = u8::try_from(constants()["ARITY"]).unwrap();
    let signature = Signature::readings([0; 16]);
    let mut table = Table::new(1).unwrap();
    assert_eq!(table.insert(1, &signature, most + 1), Err(Refusal::Argument));
    assert_eq!(table.delete(1, most + 1), Err(Refusal::Argument));
    table.insert(1, &signature, most).unwrap();
    table.delete(1, most).unwrap();
}
