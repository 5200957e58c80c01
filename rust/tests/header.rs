//! The crate and include/lu62.h say the same: refusals by number and in words, states, marks and roles by number, sizes, format and
//! version.
use lu62::{inbox_length, unit_length, End, Mark, Reason, Role, Session, State, FORMAT, IMAGE, INBOX_MOST, MORE_FOLLOWS};
use std::collections::BTreeMap;

const HEADER: &str = include_str!("../../include/lu62.h");

// The header's definitions of one word each.
fn definitions() -> BTreeMap<&'static str, &'static str> {
    let words = HEADER.lines().filter_map(|line| line.strip_prefix("#define "));
    words
        .filter_map(|rest| rest.split_once(' '))
        .map(|(name, value)| (name, value.split("/*").next().unwrap_or("").trim()))
        .collect()
}

// What a function of the header returns for each of its cases.
fn cases(function: &str) -> Vec<(&'static str, &'static str)> {
    let start = HEADER.find(&format!("*{function}(")).expect("the header has the function");
    let body = HEADER[start..].split("default:").next().unwrap_or("");
    let lines = body.lines().filter_map(|line| line.trim().strip_prefix("case "));
    lines.filter_map(|line| line.strip_suffix("\";")?.split_once(": return \"")).collect()
}

#[test]
fn refusals_have_the_same_numbers_and_words() {
    let definitions = definitions();
    let mut told: Vec<(u32, &str)> = cases("lu62_refusal_text")
        .into_iter()
        .map(|(name, text)| (definitions[name].parse().expect("a refusal's definition is a number"), text))
        .collect();
    told.sort_unstable();
    let accepted = (0, "accepted");
    let ours = Reason::ALL.iter().map(|reason| (reason.number(), reason.text()));
    assert_eq!(told, std::iter::once(accepted).chain(ours).collect::<Vec<_>>());
    for number in 0..64 {
        assert_eq!(Reason::from_number(number).map(Reason::number), told[1..].iter().map(|t| t.0).find(|&n| n == number));
    }
}

#[test]
fn sizes_format_and_version_are_the_same() {
    let definitions = definitions();
    let number = |name: &str| definitions[name].parse::<usize>().expect("a number");
    assert_eq!(number("LU62_IMAGE"), IMAGE);
    assert_eq!(number("LU62_FORMAT"), usize::from(FORMAT));
    assert_eq!(number("LU62_INBOX_MOST"), INBOX_MOST);
    assert_eq!(definitions["LU62_MORE_FOLLOWS"], format!("{MORE_FOLLOWS:#X}"));
    assert_eq!(number("LU62_RECORD_MOST"), usize::from(!MORE_FOLLOWS));
    assert!(HEADER.contains("#define LU62_UNIT(m) ((m) + 5)\n") && unit_length(8) == 8 + 5);
    assert!(HEADER.contains("#define LU62_INBOX(w, m) ((w) * (m))\n") && inbox_length(3, 8) == 3 * 8);
    assert_eq!(definitions["LU62_VERSION"], format!("\"{}\"", env!("CARGO_PKG_VERSION")));
}

// The numbers of the header's states or marks with their names in small letters, in the order of the numbers.
fn named(function: &str) -> Vec<(u32, String)> {
    let definitions = definitions();
    let mut rows: Vec<(u32, String)> = cases(function)
        .into_iter()
        .map(|(name, text)| (definitions[name].parse().expect("a number"), text.replace('-', "").to_lowercase()))
        .collect();
    rows.sort_unstable();
    rows
}

// The crate's names by number, in the same form, up to a number well past the last.
fn ours<T: std::fmt::Debug>(value: impl Fn(u32) -> Option<T>) -> Vec<(u32, String)> {
    (0..256).filter_map(|number| Some((number, format!("{:?}", value(number)?).to_lowercase()))).collect()
}

#[test]
fn states_have_the_same_numbers() {
    assert_eq!(named("lu62_state_name"), ours(State::from_number));
}

#[test]
fn marks_have_the_same_numbers() {
    let marks = named("lu62_mark_name");
    assert_eq!(marks[0], (0, "none".to_string()));
    assert_eq!(marks[1..], ours(Mark::from_number));
}

#[test]
fn roles_have_the_same_numbers() {
    let definitions = definitions();
    for (name, role) in [("LU62_FIRST_SPEAKER", Role::FirstSpeaker), ("LU62_BIDDER", Role::Bidder)] {
        let session = Session { role, out_window: 1, in_window: 1, out_max: 8, in_max: 8 };
        let end = End::open(session, &[0; 8], &[0; unit_length(8)], &[0; inbox_length(1, 8)]).expect("these sizes are in range");
        // The role is the byte behind the format.
        assert_eq!(end.image()[1].to_string(), definitions[name], "{name}");
    }
}
