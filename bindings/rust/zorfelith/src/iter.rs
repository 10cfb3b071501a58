//! Iterators over matches, and over the pieces between them.

use crate::cursor::Cursor;
use crate::error::Error;
use crate::groups::{Captures, Match};
use crate::input::{Input, Span};
use crate::regex::Regex;
use crate::search::{Search, Source};
use std::iter::FusedIterator;

/// The matches of a text, from left to right. An `Err` is the last item.
pub struct FindMatches<'r, 't, C> {
    regex: &'r Regex,
    /// The search, or the error for which there is none.
    search: Result<Search<'r, 't, C>, Error>,
    is_done: bool,
}

impl<'r, 't, C: Cursor<'t>> FindMatches<'r, 't, C> {
    pub(crate) fn new(regex: &'r Regex, input: Input<C>) -> Self {
        let anchored = input.anchored;
        let search = Source::new(input).and_then(|source| Search::new(regex, source, anchored));
        FindMatches { regex, search, is_done: false }
    }

    /// The regex.
    pub fn regex(&self) -> &'r Regex {
        self.regex
    }

    /// Where the range ends, or the text where that comes first.
    fn range_end(&mut self) -> usize {
        self.search.as_mut().map_or(0, Search::range_end)
    }
}

impl<'t, C: Cursor<'t>> Iterator for FindMatches<'_, 't, C> {
    type Item = Result<Match, Error>;

    #[inline]
    fn next(&mut self) -> Option<Result<Match, Error>> {
        if let Some(found) = self.search.as_mut().ok().and_then(Search::next_given) {
            return Some(Ok(found));
        }
        self.next_found()
    }
}

impl<'t, C: Cursor<'t>> FindMatches<'_, 't, C> {
    /// The next match, which isn't in the batch.
    fn next_found(&mut self) -> Option<Result<Match, Error>> {
        if self.is_done {
            return None;
        }
        let found = match &mut self.search {
            Ok(search) => search.next_match(),
            Err(error) => Err(error.clone()),
        };
        self.is_done = !matches!(found, Ok(Some(_)));
        found.transpose()
    }
}

impl<'t, C: Cursor<'t>> FusedIterator for FindMatches<'_, 't, C> {}

/// The matches of a text with their groups, from left to right. An `Err` is the last item.
pub struct CapturesMatches<'r, 't, C>(pub(crate) FindMatches<'r, 't, C>);

impl<'r, 't, C: Cursor<'t>> CapturesMatches<'r, 't, C> {
    /// The regex.
    pub fn regex(&self) -> &'r Regex {
        self.0.regex
    }
}

impl<'t, C: Cursor<'t>> Iterator for CapturesMatches<'_, 't, C> {
    type Item = Result<Captures, Error>;

    fn next(&mut self) -> Option<Result<Captures, Error>> {
        let found = self.0.next()?;
        let captures = found.and_then(|found| self.0.search.as_mut().map_err(|error| error.clone())?.captures(found));
        self.0.is_done |= captures.is_err();
        Some(captures)
    }
}

impl<'t, C: Cursor<'t>> FusedIterator for CapturesMatches<'_, 't, C> {}

/// The pieces of a text between its matches. An `Err` is the last item.
pub struct Split<'r, 't, C> {
    matches: FindMatches<'r, 't, C>,
    /// Where the next piece begins; `None` behind the last one.
    at: Option<usize>,
}

impl<'r, 't, C: Cursor<'t>> Split<'r, 't, C> {
    pub(crate) fn new(matches: FindMatches<'r, 't, C>) -> Self {
        Split { matches, at: Some(0) }
    }

    /// The rest of the text, as the last piece.
    fn rest(&mut self) -> Option<Result<Span, Error>> {
        let start = self.at.take()?;
        let end = self.matches.range_end().max(start);
        Some(Ok(Span { start, end }))
    }
}

impl<'t, C: Cursor<'t>> Iterator for Split<'_, 't, C> {
    type Item = Result<Span, Error>;

    fn next(&mut self) -> Option<Result<Span, Error>> {
        let start = self.at?;
        match self.matches.next() {
            Some(Ok(found)) => {
                self.at = Some(found.end());
                Some(Ok(Span { start, end: found.start() }))
            }
            Some(Err(error)) => {
                self.at = None;
                Some(Err(error))
            }
            None => self.rest(),
        }
    }
}

impl<'t, C: Cursor<'t>> FusedIterator for Split<'_, 't, C> {}

/// At most some pieces of a text between its matches, of which the last is the rest. An `Err` is the last item.
pub struct SplitN<'r, 't, C> {
    pieces: Split<'r, 't, C>,
    /// How many pieces may still come.
    left: usize,
}

impl<'r, 't, C: Cursor<'t>> SplitN<'r, 't, C> {
    pub(crate) fn new(pieces: Split<'r, 't, C>, limit: usize) -> Self {
        SplitN { pieces, left: limit }
    }
}

impl<'t, C: Cursor<'t>> Iterator for SplitN<'_, 't, C> {
    type Item = Result<Span, Error>;

    fn next(&mut self) -> Option<Result<Span, Error>> {
        self.left = self.left.checked_sub(1)?;
        if self.left > 0 { self.pieces.next() } else { self.pieces.rest() }
    }
}

impl<'t, C: Cursor<'t>> FusedIterator for SplitN<'_, 't, C> {}
