//! What this crate says is what the header and the pages say.
use crate::blocks::*;
use crate::text;
use cosvint::{ffi, Error, Snapshot};
use std::collections::BTreeMap;
use std::mem::offset_of;

/// The header's numbers, without `COSVINT_`.
fn defined() -> BTreeMap<String, usize> {
    let header = text("include/cosvint.h");
    let number = |line: &str| {
        let mut words = line.strip_prefix("#define COSVINT_")?.split_whitespace();
        Some((words.next()?.to_owned(), words.next()?.parse().ok()?))
    };
    header.lines().filter_map(number).collect()
}

#[test]
fn sizes_and_numbers_are_the_headers() {
    let defined = defined();
    for (name, value) in [
        ("LONGEST_NAME", ffi::LONGEST_NAME),
        ("ID_DIGITS", ffi::ID_DIGITS),
        ("ANSWER_SIZE", ffi::ANSWER_SIZE),
        ("STATE_SIZE", ffi::STATE_SIZE),
        ("DONE", ffi::DONE as usize),
        ("NOTHING", ffi::NOTHING as usize),
        ("TOO_SHORT", ffi::TOO_SHORT as usize),
        ("WORKTREE", ffi::WORKTREE as usize),
        ("COMMON", ffi::COMMON as usize),
        ("PACKED", ffi::PACKED as usize),
        ("NONE", ffi::NONE as usize),
        ("OBJECT", ffi::OBJECT as usize),
        ("SYMBOLIC", ffi::SYMBOLIC as usize),
    ] {
        assert_eq!(defined.get(name), Some(&value), "{name}");
    }
}

#[test]
fn an_answer_has_the_headers_fields() {
    let mut at = BTreeMap::new();
    macro_rules! fields {
        ($($field:ident)*) => { $(at.insert(stringify!($field).to_uppercase(), offset_of!(ffi::Answer, $field));)* };
    }
    fields!(number region block kind has_peeled name_length target_length id peeled name target);
    let field =
        |(name, value): (String, usize)| Some((name.strip_prefix("ANSWER_")?.strip_suffix("_AT")?.to_owned(), value));
    assert_eq!(at, defined().into_iter().filter_map(field).collect());
}

/// One error of each number.
fn errors() -> Vec<Error> {
    let worktree = loose("refs/m", "ref: refs/nowhere");
    let error = Snapshot::new(&worktree, None, b"").follow("m", None).unwrap_err();
    let last = || Box::new(error.last().unwrap().clone());
    vec![
        Error::NotWhole,
        Error::TooManyBlocks,
        Error::TooLong,
        Error::Malformed,
        Error::ExpansionTooLong,
        Error::Damaged(None),
        Error::ErrorBlock(None),
        Error::OutOfOrder(None),
        Error::Unread,
        Error::Unreadable,
        Error::IncompleteTarget,
        Error::Unsupported,
        Error::TargetNotFound(last()),
        Error::Cycle(last()),
        Error::TooDeep(last()),
    ]
}

/// A variant's name as the header writes it: `NotWhole` is `NOT_WHOLE`.
fn constant(error: &Error) -> String {
    let variant: String = format!("{error:?}").chars().take_while(char::is_ascii_alphabetic).collect();
    let mut out = String::new();
    for letter in variant.chars() {
        if letter.is_uppercase() && !out.is_empty() {
            out.push('_');
        }
        out.push(letter.to_ascii_uppercase());
    }
    out
}

#[test]
fn refusals_have_the_headers_names_and_the_pages_words() {
    let (defined, page) = (defined(), text("docs/REFUSALS.md"));
    let rows: Vec<Vec<&str>> = page.lines().map(|line| line.trim_matches(['|', ' ']).split(" | ").collect()).collect();
    for (number, error) in (1..).zip(errors()) {
        assert_eq!(error.number(), number);
        assert_eq!(defined.get(&constant(&error)), Some(&(number as usize)), "{error:?}");
        let row = rows.iter().find(|row| row[0] == number.to_string()).unwrap();
        assert!(row[1].starts_with(error.meaning()), "{number}: {} / {}", row[1], error.meaning());
        assert!(error.to_string().starts_with(&format!("refused {number}: {}", error.meaning())));
    }
}

#[test]
fn the_place_and_the_last_reference_are_shown() {
    let worktree = [loose("refs/a", ONE), damaged()].concat();
    let unfit = Snapshot::new(&worktree, None, b"").fitness().unwrap_err().to_string();
    assert!(unfit.ends_with(" (worktree, block 1)"), "{unfit}");
    let stopped = errors()[12].to_string();
    assert!(stopped.ends_with(" (last reference reached: refs/m)"), "{stopped}");
}
