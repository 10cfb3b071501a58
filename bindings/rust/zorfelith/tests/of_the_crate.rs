//! What the tests of the Rust crate `regex-cursor` ask, under their names. Its suites are the rows.

#![allow(clippy::single_range_in_vec_init)]

mod common;

use common::{Random, Recut, in_chunks, with_empty_ones};
use std::fmt::Debug;
use std::ops::Range;
use zorfelith::{Builder, Cursor, Grammar, Input, IntoCursor, Regex};

/// All matches.
fn all<'t, C: Cursor<'t>>(regex: &Regex, input: Input<C>) -> Vec<Range<usize>> {
    regex.find_iter(input).map(|found| found.unwrap().range()).collect()
}

/// The matches in this range, which are the same in each cutting.
fn in_each_cutting(regex: &Regex, text: &[u8], range: Range<usize>) -> Vec<Range<usize>> {
    let matches = all(regex, Input::new(text).range(range.clone()));
    for len in [1, 2, 5] {
        let slices = with_empty_ones(text, len);
        assert_eq!(all(regex, Input::new(&in_chunks(text, len)).range(range.clone())), matches);
        assert_eq!(all(regex, Input::new(&slices).range(range.clone())), matches);
    }
    for place in [0, text.len() / 2, text.len()] {
        assert_eq!(all(regex, Input::new(Recut::at(text, place)).range(range.clone())), matches);
    }
    matches
}

/// The matches in the whole text, with characters and with bytes that are no UTF-8.
fn test(pattern: &str, text: &[u8], want: &[Range<usize>]) {
    for utf8 in [true, false] {
        let regex = Regex::builder().utf8(utf8).utf8_empty(utf8).build(pattern).unwrap();
        assert_eq!(in_each_cutting(&regex, text, 0..usize::MAX), want, "{pattern} in {}", text.escape_ascii());
    }
}

fn folding(unicode: bool) -> Builder {
    let mut builder = Regex::builder();
    builder.case_insensitive(true).unicode(unicode);
    builder
}

#[test]
fn searcher() {
    let text = include_str!("../src/cursor.rs");
    let regex = folding(true).build("vec").unwrap();
    let matches = in_each_cutting(&regex, text.as_bytes(), 0..usize::MAX);
    let lower = text.to_ascii_lowercase();
    assert_eq!(matches, lower.match_indices("vec").map(|(at, word)| at..at + word.len()).collect::<Vec<_>>());
    assert!(matches.len() > 9);
}

#[test]
fn anchor() {
    let regex = folding(false).build("$|:").unwrap();
    assert_eq!(in_each_cutting(&regex, b":a", 0..usize::MAX), [0..1, 2..2]);
}

#[test]
fn end_of_input() {
    let regex = folding(false).build(r"\b").unwrap();
    assert_eq!(in_each_cutting(&regex, b"a b c", 0..usize::MAX), [0..0, 1..1, 2..2, 3..3, 4..4, 5..5]);
}

#[test]
fn hotloop_transition() {
    let regex = folding(true).build("/").unwrap();
    let text = "Σ /ⶠaAA ﷏00AAΣ/എ";
    assert_eq!(in_each_cutting(&regex, text.as_bytes(), 0..usize::MAX), [3..4, 20..21]);
}

#[test]
fn any() {
    test(".", b" ", &[0..1]);
}

#[test]
fn look_around() {
    test("^bar", b"foobar", &[]);
    test("foo$", b"foobar", &[]);
    test(r"(?m)(?:^|a)+", b"a\naaa\n", &[0..0, 2..2, 3..5, 6..6]);
    // Two bytes of a character of four have no end of a word.
    for utf8 in [true, false] {
        let regex = Regex::builder().utf8(utf8).utf8_empty(utf8).build(r"\b{end}").unwrap();
        assert!(in_each_cutting(&regex, "𝛃".as_bytes(), 2..3).is_empty());
    }
    let text: String = (0..400).map(|i| format!("foöbar  foÖ{0}bar foö{0}bar", " ".repeat(i % 31))).collect();
    let (mut want, mut at) = (Vec::new(), 0);
    for i in 0..400 {
        let blanks = i % 31;
        let start = at + "foöbar  foÖbar ".len() + blanks;
        at = start + "foöbar".len() + blanks;
        // Without a blank these are one word, and so are "bar" and the "foö" that follows it.
        if blanks > 0 && i == 399 {
            want.push(start..at);
        }
    }
    let regex = Regex::new(r"\bfoö\b[ ]*\bbar\b").unwrap();
    assert_eq!(in_each_cutting(&regex, text.as_bytes(), 0..usize::MAX), want);
}

#[test]
fn maybe_empty() {
    test("x*", b"x", &[0..1]);
    test(r"\bx*\b", b"x", &[0..1]);
}

#[test]
fn prefix() {
    let regex = Regex::new("^foo$").unwrap();
    assert_eq!(regex.find(Input::new("xfoox").slice(1..4)).unwrap().unwrap().range(), 1..4);
    let chunks = in_chunks(b"xfoox", 1);
    assert_eq!(regex.find(Input::new(&chunks).slice(1..4)).unwrap().unwrap().range(), 1..4);
    let mut input = Input::new(Recut::at(b"xfoox", 3));
    input.set_slice(1..4);
    assert_eq!(regex.find(input).unwrap().unwrap().range(), 1..4);
}

/// A search that begins where the text ends.
#[test]
fn rope_one_past_end() {
    let regex = Regex::builder().case_insensitive(true).multi_line(true).build("git nix").unwrap();
    assert_eq!(regex.find(Input::new(Recut::at(b"x", 1)).range(1..)).unwrap(), None);
    assert_eq!(regex.find(Input::new(Recut::at(b"x", 1))).unwrap(), None);
}

/// A cursor goes over its text and back.
fn smoke<'t, C: Cursor<'t> + Clone>(cursor: C, text: &[u8]) {
    let (mut cursor, mut offset, mut seen) = (cursor, 0, Vec::new());
    loop {
        assert_eq!(cursor.offset(), offset);
        offset += cursor.chunk().len();
        seen.extend_from_slice(cursor.chunk());
        if !cursor.advance() {
            break;
        }
    }
    assert_eq!(seen, text);
    let last = cursor.clone();
    assert!(!cursor.advance());
    assert_eq!((cursor.chunk(), cursor.offset()), (last.chunk(), last.offset()));
    loop {
        offset -= cursor.chunk().len();
        assert_eq!(cursor.offset(), offset);
        if !cursor.backtrack() {
            break;
        }
    }
    assert_eq!(offset, 0);
    assert!(!cursor.backtrack());
    assert_eq!(cursor.offset(), 0);
}

#[test]
fn smoke_test() {
    for text in ["", "abc", &"abc".repeat(5000)] {
        let bytes = text.as_bytes();
        smoke(text.into_cursor(), bytes);
        smoke(bytes.into_cursor(), bytes);
        smoke(in_chunks(bytes, 7).into_cursor(), bytes);
        smoke(with_empty_ones(bytes, 7).into_cursor(), bytes);
        smoke(Recut::at(bytes, 0), bytes);
    }
}

/// Some text of these characters.
fn some(random: &mut Random, of: &[&str], most: usize) -> String {
    (0..random.below(most + 1)).map(|_| of[random.below(of.len())]).collect()
}

const LETTERS: [&str; 8] = ["a", "b", "A", " ", "\n", "é", "東", "0"];
const PARTS: [&str; 16] = ["a", "b", "é", ".", "[ab]", "[^a]", "(", ")", "*", "+", "?", "|", "^", "$", r"\b", r"\w"];

/// Random patterns over random texts: each cutting and each range has the same matches, and these are in order.
#[test]
fn matches() {
    let mut random = Random(7);
    let mut built = 0;
    for _ in 0..3000 {
        let pattern = some(&mut random, &PARTS, 7);
        let Ok(regex) = folding(true).grammar(Grammar::Full).build(&pattern) else { continue };
        built += 1;
        let text = some(&mut random, &LETTERS, 30);
        let start = random.below(text.len() + 1);
        let end = start + random.below(text.len() + 1 - start);
        let matches = in_each_cutting(&regex, text.as_bytes(), start..end);
        in_order(&matches, start..end);
        in_order(&in_each_cutting(&regex, text.as_bytes(), 0..usize::MAX), 0..text.len());
    }
    assert!(built > 500, "{built}");
}

/// The same of whole words.
#[test]
fn matches_word() {
    let mut random = Random(8);
    for _ in 0..1000 {
        let word = some(&mut random, &PARTS[..6], 4);
        let regex = Regex::new(&format!(r"\b{word}\b")).unwrap();
        let text = some(&mut random, &LETTERS, 30);
        in_order(&in_each_cutting(&regex, text.as_bytes(), 0..usize::MAX), 0..text.len());
    }
}

/// A long text, and a range of it.
#[test]
fn matches_range() {
    let mut random = Random(9);
    for _ in 0..20 {
        let text = some(&mut random, &LETTERS, 9).repeat(1024);
        let needle = some(&mut random, &LETTERS, 3);
        let regex = Regex::new(&zorfelith::escape(&needle)).unwrap();
        let (start, end) = (text.len() / 3, text.len() / 3 * 2);
        let matches = in_each_cutting(&regex, text.as_bytes(), start..end);
        in_order(&matches, start..end);
        assert!(matches.iter().all(|found| text.as_bytes()[found.clone()] == *needle.as_bytes()));
    }
}

/// The matches rise, and lie in the range.
fn in_order(matches: &[Range<usize>], range: Range<usize>) {
    let mut at = range.start;
    for found in matches {
        assert!(at <= found.start && found.start <= found.end && found.end <= range.end, "{matches:?}");
        at = found.end;
    }
}

/// What a regex and its searches give can be shown.
#[test]
fn debug() {
    fn shown(value: impl Debug) -> String {
        format!("{value:?}")
    }
    let regex = Regex::new("b").unwrap();
    assert_eq!(shown(&regex), "Regex { pattern_len: 1, .. }");
    assert_eq!(shown(in_chunks(b"a\x80", 1)), r#"[b"a", b"\x80"]"#);
    assert!(shown(regex.find("ab").unwrap()).contains("start: 1"));
    assert_eq!(shown(Regex::new("a(b").unwrap_err()), "Syntax(\nunclosed group:\n    a(b\n     ^\n)");
}
