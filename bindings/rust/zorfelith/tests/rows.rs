//! Each row of crates/rows/stdin that the wrapper can ask, in several cuttings, by each call that answers it.

mod common;

use common::{Recut, in_chunks, with_empty_ones};
use std::fmt::Debug;
use zorfelith::{Anchored, Builder, Captures, Cursor, Error, Grammar, Input, IntoCursor, Match, MatchKind, Progress, Regex};

/// These fields say how a search is made, and no answer of a regex depends on them.
const UNASKED: [&str; 12] = [
    "walker",
    "dfa_limit",
    "tables",
    "quit",
    "capacity",
    "clears",
    "byte_classes",
    "needle",
    "early",
    "reach",
    "parities",
    "captures",
];

/// A row, as far as it is asked.
#[derive(Debug, Default)]
struct Row {
    patterns: Vec<String>,
    text: Vec<u8>,
    slice: Option<(usize, usize)>,
    span: Option<(usize, usize)>,
    is_anchored: bool,
    keeps_groups: bool,
    builder: Builder,
    is_all: bool,
    want: (String, String),
}

/// The bytes that a field's value writes.
fn bytes_of(value: &str) -> Vec<u8> {
    let (mut out, mut rest) = (Vec::new(), value.as_bytes());
    while let Some((&byte, behind)) = rest.split_first() {
        rest = behind;
        if byte != b'\\' {
            out.push(byte);
            continue;
        }
        let (kind, behind) = rest.split_first().unwrap();
        rest = behind;
        out.push(match kind {
            b'n' => b'\n',
            b'r' => b'\r',
            b't' => b'\t',
            b'x' => {
                let digits = std::str::from_utf8(&rest[..2]).unwrap();
                rest = &rest[2..];
                u8::from_str_radix(digits, 16).unwrap()
            }
            _ => b'\\',
        });
    }
    out
}

/// Two numbers, of which the last may be `end`.
fn pair(value: &str) -> (usize, usize) {
    let (start, end) = value.split_once('-').unwrap();
    (start.parse().unwrap(), if end == "end" { usize::MAX } else { end.parse().unwrap() })
}

/// The row of a line, or `None` if it can't be asked.
fn row_of(line: &str) -> Option<Row> {
    let mut row = Row { keeps_groups: true, ..Row::default() };
    let mut before = Vec::new();
    for field in line.split('\t') {
        let (name, value) = field.split_once('=')?;
        match (name, value) {
            ("pattern", _) => row.patterns.push(value.to_string()),
            ("text", _) => row.text = bytes_of(value),
            ("slice", _) => row.slice = Some(pair(value)),
            ("span", _) => row.span = Some(pair(value)),
            ("anchored", "yes" | "no") => row.is_anchored = value == "yes",
            ("kind", "all") => {
                row.is_all = true;
                row.builder.match_kind(MatchKind::All);
            }
            ("kind", _) => _ = row.builder.match_kind(MatchKind::LeftmostLongest),
            ("utf8", "no") => _ = row.builder.utf8(false),
            ("utf8_empty", "no") => _ = row.builder.utf8_empty(false),
            ("unicode", "no") => _ = row.builder.unicode(false),
            ("nocase", "yes") => _ = row.builder.case_insensitive(true),
            ("lines", "yes") => _ = row.builder.multi_line(true),
            ("grammar", "full") => _ = row.builder.grammar(Grammar::Full),
            ("limit", _) if value != "none" => _ = row.builder.size_limit(value.parse().unwrap()),
            ("parities", _) => before = (0..value.parse::<u32>().unwrap()).map(|at| b"ab"[at.count_ones() as usize % 2]).collect(),
            ("captures", _) => row.keeps_groups = false,
            ("first" | "all" | "groups" | "pieces" | "which" | "refused", _) => row.want = (name.to_string(), value.to_string()),
            _ if UNASKED.contains(&name) => {}
            _ => return None,
        }
    }
    row.text.splice(0..0, before);
    // Of a slice that ends inside a character, the wrapper sees the end of a text.
    let splits = row.slice.is_some_and(|(_, end)| row.text.get(end).is_some_and(|byte| (0x80..0xC0).contains(byte)));
    let is_asked = !row.want.0.is_empty() && !splits && (row.keeps_groups || row.want.0 != "groups");
    is_asked.then_some(row)
}

/// The spans of a field, and the number before them.
fn spans_of(value: &str) -> (Option<usize>, Vec<Option<(usize, usize)>>) {
    let (number, spans) = match value.split_once(": ") {
        Some((number, spans)) => (number.parse().ok(), spans),
        None => (None, value),
    };
    let spans = if spans == "none" { Vec::new() } else { spans.split(' ').map(|span| (span != ".").then(|| pair(span))).collect() };
    (number, spans)
}

impl Row {
    /// The range that is searched: its start, and its end if the text goes so far.
    fn bounds(&self) -> (usize, usize) {
        let slice = self.slice.unwrap_or((0, usize::MAX));
        let span = self.span.unwrap_or(slice);
        (span.0.max(slice.0), span.1.min(slice.1).min(self.text.len()))
    }

    /// The row's input over this text.
    fn input<'t, C: Cursor<'t>>(&self, text: impl IntoCursor<Cursor = C>) -> Input<C> {
        let mut input = Input::new(text).range(..);
        if let Some((start, end)) = self.slice {
            input.set_slice(start..end);
        }
        if let Some((start, end)) = self.span {
            input.set_range(start..end);
        }
        input.anchored(if self.is_anchored { Anchored::Yes } else { Anchored::No })
    }

    /// Whether the whole text is searched, and a match may begin anywhere.
    fn is_whole(&self) -> bool {
        self.slice.is_none() && self.span.is_none() && !self.is_anchored
    }

    /// The matches that are wanted, where all are.
    fn wants(&self) -> Vec<Option<(usize, usize)>> {
        spans_of(&self.want.1).1
    }
}

/// Fails, and shows the row, if two answers differ.
#[track_caller]
fn same<T: PartialEq + Debug>(row: &Row, answer: T, want: T) {
    assert_eq!(answer, want, "{row:?}");
}

fn pair_of(found: &Match) -> Option<(usize, usize)> {
    Some((found.start(), found.end()))
}

fn groups_of(captures: &Captures) -> Vec<Option<(usize, usize)>> {
    captures.iter().map(|group| group.map(|span| (span.start, span.end))).collect()
}

/// Asks for the first match, by each call that finds it.
fn ask_first<'t, C: Cursor<'t> + Clone>(row: &Row, regex: &Regex, text: C) {
    let (number, spans) = spans_of(&row.want.1);
    let want = spans.first().copied().flatten();
    let found = regex.find(row.input(text.clone())).unwrap();
    same(row, found.as_ref().and_then(pair_of), want);
    if let Some(found) = found {
        same(row, found.pattern(), number.unwrap_or(0));
    }
    same(row, regex.is_match(row.input(text.clone())).unwrap(), want.is_some());
    same(row, regex.find_iter(row.input(text.clone())).next().transpose().unwrap(), found);
    let captures = regex.captures(row.input(text.clone())).unwrap();
    same(row, captures.as_ref().map(Captures::get_match), found);
    let first = regex.captures_iter(row.input(text)).next().transpose().unwrap();
    same(row, first.as_ref().map(groups_of), captures.as_ref().map(groups_of));
    if let Some(captures) = captures.filter(|_| row.want.0 == "groups") {
        same(row, groups_of(&captures), spans);
    }
}

/// The matches of a stream that is fed the text in chunks of a length.
fn streamed(regex: &Regex, text: &[u8], len: usize) -> Vec<Match> {
    let mut stream = regex.stream().unwrap();
    let mut matches = Vec::new();
    for chunk in text.chunks(len) {
        stream.feed(chunk).unwrap();
        while let Some(found) = stream.next_match() {
            assert_eq!(stream.bytes_of(found), text[found.range()]);
            matches.push(found);
        }
    }
    stream.finish();
    matches.extend(std::iter::from_fn(|| stream.next_match()));
    matches
}

/// The match from the start of a text on, which is searched in slices of so many bytes.
fn stepped<'t, C: Cursor<'t> + Clone>(regex: &Regex, text: &C, budget: usize) -> Option<Match> {
    let mut search = regex.steps(0).unwrap();
    loop {
        let before = search.position();
        match search.resume(Input::new(text.clone()).range(..), budget).unwrap() {
            Progress::Done(found) => return found,
            Progress::NotYet => assert!(search.position() >= before + budget),
        }
    }
}

/// Asks for all matches, by each call that gives them, or that they tell.
fn ask_all<'t, C: Cursor<'t> + Clone>(row: &Row, regex: &Regex, text: C) {
    let want = row.wants();
    let matches: Vec<Match> = regex.find_iter(row.input(text.clone())).map(Result::unwrap).collect();
    same(row, matches.iter().map(pair_of).collect::<Vec<_>>(), want.clone());
    let captures = regex.captures_iter(row.input(text.clone())).map(|captures| captures.unwrap().get_match());
    same(row, captures.collect::<Vec<_>>(), matches.clone());
    if row.is_whole() {
        for len in 1..=3 {
            same(row, streamed(regex, &row.text, len), matches.clone());
            same(row, stepped(regex, &text, len), matches.first().copied());
        }
    }
    let (start, end) = row.bounds();
    for place in [0, start, (start + end) / 2, end, end + 1] {
        let last = matches.iter().rfind(|found| found.start() < place).copied();
        same(row, regex.find_last(row.input(text.clone()), place).unwrap(), last);
    }
    let (mut pieces, mut at) = (Vec::new(), 0);
    for found in &matches {
        pieces.push(at..found.start());
        at = found.end();
    }
    pieces.push(at..end);
    let split: Vec<_> = regex.split(row.input(text.clone())).map(|piece| piece.unwrap().range()).collect();
    same(row, split, pieces.clone());
    pieces[0].start = start;
    let replaced: Vec<Vec<u8>> = pieces.iter().map(|piece| row.text[piece.clone()].to_vec()).collect();
    same(row, regex.replace_all(row.input(text), |_| "<>").unwrap(), replaced.join(&b"<>"[..]));
}

/// Asks for the pieces between matches.
fn ask_pieces<'t, C: Cursor<'t> + Clone>(row: &Row, regex: &Regex, text: C) {
    let (limit, want) = spans_of(&row.want.1);
    let span = |piece: Result<zorfelith::Span, Error>| piece.map(|span| Some((span.start, span.end))).unwrap();
    let pieces: Vec<_> = match limit {
        Some(limit) => regex.splitn(row.input(text), limit).map(span).collect(),
        None => regex.split(row.input(text)).map(span).collect(),
    };
    same(row, pieces, want);
}

/// Asks a row over one cutting of its text.
fn ask<'t, C: Cursor<'t> + Clone>(row: &Row, regex: &Regex, text: C) {
    let (start, end) = row.bounds();
    if start > end {
        // No match for the row, and here an error.
        same(row, regex.find(row.input(text.clone())), Err(Error::Outside));
        same(row, regex.is_match(row.input(text.clone())), Err(Error::Outside));
        same(row, regex.captures(row.input(text.clone())).map(|_| ()), Err(Error::Outside));
        same(row, regex.find_iter(row.input(text.clone())).collect(), vec![Err(Error::Outside)]);
        same(row, regex.split(row.input(text)).collect(), vec![Err(Error::Outside)]);
        return;
    }
    match row.want.0.as_str() {
        "first" | "groups" => ask_first(row, regex, text),
        "all" => ask_all(row, regex, text),
        "pieces" => ask_pieces(row, regex, text),
        _ if row.is_anchored => same(row, regex.which_patterns(row.input(text)), Err(Error::Unsupported)),
        _ => {
            let wanted = row.want.1.split(' ').filter_map(|number| number.parse().ok()).collect();
            same(row, regex.which_patterns(row.input(text)), Ok(wanted));
        }
    }
}

/// Whether a regex was refused as the row says; `None` if the row can't be asked.
fn is_refused(row: &Row, built: &Result<Regex, Error>) -> Option<bool> {
    let words: Vec<&str> = row.want.1.split(' ').collect();
    match words[0] {
        "no" => Some(built.is_ok()),
        "size" | "places" => Some(matches!(built, Err(Error::TooLarge))),
        "syntax" => match built {
            Err(Error::Syntax(fault)) => {
                Some(fault.pattern().to_string() == words[1] && words.get(3).is_none_or(|at| fault.at().to_string() == *at))
            }
            _ => Some(false),
        },
        _ => None,
    }
}

#[test]
fn rows() {
    let path = concat!(env!("CARGO_MANIFEST_DIR"), "/../../../crates/rows/stdin");
    let (mut asked, mut left) = (0, 0);
    for line in std::fs::read_to_string(path).unwrap().lines().filter(|line| !line.is_empty() && !line.starts_with('#')) {
        let Some(row) = row_of(line) else {
            left += 1;
            continue;
        };
        let built = row.builder.build_many(&row.patterns);
        if row.want.0 == "refused" {
            let told = is_refused(&row, &built);
            assert!(told != Some(false), "{row:?}: {built:?}");
            asked += usize::from(told.is_some());
            continue;
        }
        asked += 1;
        let (regex, text) = (built.unwrap(), &row.text[..]);
        ask(&row, &regex, text);
        for len in [1, 3] {
            ask(&row, &regex, in_chunks(text, len).into_cursor());
            ask(&row, &regex, with_empty_ones(text, len).into_cursor());
        }
        ask(&row, &regex, Recut::at(text, 0));
        ask(&row, &regex, Recut::at(text, text.len() / 2));
    }
    println!("{asked} rows asked, {left} not");
    assert!(asked > 900, "{asked} rows asked");
}
