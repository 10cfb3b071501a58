//! Ropes: a cursor goes over one and back, from each of some places, and is searched.

use ropey::Rope;
use zorfelith::{Cursor, Input, Regex};
use zorfelith_ropey::RopeyCursor;

/// Goes over a text from its start to its end and back.
fn smoke(mut cursor: RopeyCursor<'_>, text: &str) {
    while cursor.backtrack() {}
    assert!(!cursor.backtrack());
    let (mut seen, mut offset) = (Vec::new(), 0);
    loop {
        assert_eq!(cursor.offset(), offset);
        offset += cursor.chunk().len();
        seen.extend_from_slice(cursor.chunk());
        if !cursor.advance() {
            break;
        }
    }
    assert_eq!(seen, text.as_bytes());
    assert!(!cursor.advance());
    assert!(!cursor.advance());
    loop {
        offset -= cursor.chunk().len();
        assert_eq!(cursor.offset(), offset);
        if !cursor.backtrack() {
            break;
        }
    }
    assert_eq!(offset, 0);
}

#[test]
fn smoke_test() {
    for text in ["", "abc", &"abc".repeat(5000)] {
        let rope = Rope::from_str(text);
        for place in [0, text.len() / 2, text.len()] {
            smoke(RopeyCursor::at(rope.slice(..), place), text);
        }
    }
}

#[test]
fn rope_one_past_end() {
    let rope = Rope::from_str("x");
    let regex = Regex::builder().case_insensitive(true).multi_line(true).build("git nix").unwrap();
    let cursor = RopeyCursor::at(rope.slice(..), 1);
    assert_eq!(regex.find(Input::new(cursor).range(1..)).unwrap(), None);
}

#[test]
fn prefix() {
    let rope = Rope::from_str("xfoox");
    let input = Input::new(RopeyCursor::new(rope.slice(..))).slice(1..4);
    assert_eq!(Regex::new("^foo$").unwrap().find(input).unwrap().unwrap().range(), 1..4);
}
