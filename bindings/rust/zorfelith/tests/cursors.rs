//! How far a search moves its cursor, and what it does with cursors that mislead it.

mod common;

use common::Recut;
use std::cell::Cell;
use std::ops::Range;
use zorfelith::{Anchored, Cursor, Error, Input, Regex, Slices};

/// A cursor that counts its moves.
#[derive(Clone)]
struct Counted<'m, C> {
    cursor: C,
    moves: &'m Cell<usize>,
}

impl<'t, C: Cursor<'t>> Cursor<'t> for Counted<'_, C> {
    fn chunk(&self) -> &'t [u8] {
        self.cursor.chunk()
    }

    fn advance(&mut self) -> bool {
        self.moves.set(self.moves.get() + 1);
        self.cursor.advance()
    }

    fn backtrack(&mut self) -> bool {
        self.moves.set(self.moves.get() + 1);
        self.cursor.backtrack()
    }

    fn offset(&self) -> usize {
        self.cursor.offset()
    }
}

/// A search goes over the chunks around its match, and no others.
#[test]
fn moves() {
    let line = "no date here, and none in the next line, but then 2026-11-22 it is\n";
    let text = line.repeat(2000);
    let slices: Vec<&str> = text.as_bytes().chunks(10).map(|chunk| std::str::from_utf8(chunk).unwrap()).collect();
    let moves = Cell::new(0);
    let counted = || {
        moves.set(0);
        Counted { cursor: Slices::new(&slices), moves: &moves }
    };
    let first = 50..60;
    let regex = Regex::new(r"(\d+)-(\d+)-(\d+)").unwrap();
    assert_eq!(regex.find(counted()).unwrap().unwrap().range(), first);
    assert!(moves.get() < 300, "{}", moves.get());
    assert!(regex.is_match(counted()).unwrap());
    assert!(moves.get() < 300, "{}", moves.get());
    assert_eq!(regex.captures(counted()).unwrap().unwrap().get_group(2).unwrap(), 55..57);
    assert!(moves.get() < 300, "{}", moves.get());
    let three: Vec<Range<usize>> = regex.find_iter(counted()).take(3).map(|found| found.unwrap().range()).collect();
    assert_eq!(three, [0, 1, 2].map(|i| first.start + i * line.len()..first.end + i * line.len()));
    assert!(moves.get() < 300, "{}", moves.get());
    // In a cursor that stands in the middle, from there on.
    let mut cursor = counted();
    while cursor.offset() < text.len() / 2 {
        cursor.advance();
    }
    moves.set(0);
    let found = regex.find(Input::new(cursor.clone()).range(text.len() / 2..)).unwrap().unwrap();
    assert_eq!(found.range(), text.len() / 2 + 50..text.len() / 2 + 60);
    assert!(moves.get() < 300, "{}", moves.get());
    // None in a short range.
    moves.set(0);
    assert_eq!(regex.find(Input::new(cursor).range(text.len() / 2..text.len() / 2 + 50)).unwrap(), None);
    assert!(moves.get() < 300, "{}", moves.get());
    // All of them, and no chunk twice.
    assert_eq!(regex.find_iter(counted()).count(), 2000);
    assert!(moves.get() <= slices.len() + 300, "{}", moves.get());
}

/// A match that is longer than any window.
#[test]
fn long_match() {
    let text = format!("<{}>", "ab".repeat(100_000));
    let slices: Vec<&[u8]> = text.as_bytes().chunks(100).collect();
    let regex = Regex::new("<([ab]*)>").unwrap();
    assert_eq!(regex.find(&slices).unwrap().unwrap().range(), 0..text.len());
    let captures = regex.captures(&slices).unwrap().unwrap();
    assert_eq!(captures.get_group(1).unwrap(), 1..text.len() - 1);
    assert_eq!(regex.find(Input::new(&slices).range(1..)).unwrap(), None);
    // None is final before the text's end, and each begins a byte later.
    let regex = Regex::new("<?[ab]*>").unwrap();
    assert_eq!(regex.find(Input::new(&slices).range(7..)).unwrap().unwrap().range(), 7..text.len());
    assert_eq!(regex.split(Input::new(&slices)).map(Result::unwrap).collect::<Vec<_>>(), [0..0, text.len()..text.len()]);
}

/// A cursor that doesn't go back, or tells a wrong place.
#[derive(Clone)]
struct Misleading<'t> {
    cursor: Recut<'t>,
    add: usize,
}

impl<'t> Cursor<'t> for Misleading<'t> {
    fn chunk(&self) -> &'t [u8] {
        self.cursor.chunk()
    }

    fn advance(&mut self) -> bool {
        self.cursor.advance()
    }

    fn backtrack(&mut self) -> bool {
        false
    }

    fn offset(&self) -> usize {
        self.cursor.offset().saturating_add(self.add)
    }
}

/// Whatever is found, each call returns.
#[test]
fn misleading() {
    let text = "ab 12 ab 34 ab 56".repeat(9);
    let regex = Regex::new(r"(?:\d|x)+|").unwrap();
    for add in [0, 1, 50, 1000, usize::MAX - 20, usize::MAX] {
        for place in [0, 5, 60, text.len()] {
            let cursor = Misleading { cursor: Recut::at(text.as_bytes(), place), add };
            for range in [0..usize::MAX, 3..40, 70..90, 1000..1010, usize::MAX..usize::MAX] {
                for anchored in [Anchored::No, Anchored::Yes] {
                    let input = Input::new(cursor.clone()).range(range.clone()).anchored(anchored);
                    let sliced = Input::new(cursor.clone()).slice(range.clone()).anchored(anchored);
                    for input in [input, sliced] {
                        let _ = regex.find(input.clone());
                        let _ = regex.captures(input.clone());
                        let _ = regex.which_patterns(input.clone());
                        let _ = regex.find_last(input.clone(), 100);
                        let _ = regex.replace_all(input.clone(), |_| "");
                        assert!(regex.split(input.clone()).count() <= 2 * text.len());
                        assert!(regex.captures_iter(input).count() <= 2 * text.len());
                    }
                }
            }
        }
    }
    let cursor = Misleading { cursor: Recut::at(text.as_bytes(), 60), add: 0 };
    assert_eq!(regex.find(Input::new(cursor).range(3..)), Err(Error::Outside));
}
