//! Windows: parts of a text that a cursor goes over, no further than a search needs.

use crate::cursor::{Chunk, Cursor, chunk};
use crate::error::{Error, told};
use crate::groups::Match;
use crate::input::{Input, Span};
use crate::pool::Loan;
use crate::text::{Text, part_of, searched, seek};
use zorfelith_sys as sys;

/// How many bytes before a place assertions may see.
const SEEN: usize = 4;

/// The fewest bytes by which a window grows, at first and at most. It at least doubles, if the search goes on from one place.
const GROWS: (usize, usize) = (1 << 10, 1 << 16);

/// A part of a text, as far as a search needed it: the chunks that a cursor went over.
pub(crate) struct Window<'t, C> {
    cursor: C,
    slice: Span,
    /// The range of the input, in bytes of the text.
    pub(crate) span: Span,
    chunks: Vec<Chunk<'t>>,
    /// How many chunks were let go.
    gone: usize,
    /// Where the first chunk that is kept begins, and where the last one ends. The cursor stands at the last one.
    kept: Span,
    /// Whether the text or the slice ends there.
    is_last: bool,
    grows: usize,
}

impl<'t, C: Cursor<'t>> Window<'t, C> {
    /// The window of an input in which its search begins.
    pub(crate) fn new(mut input: Input<C>) -> Result<Window<'t, C>, Error> {
        let span = searched(&mut input)?;
        let slice = input.slice;
        let first = span.start.saturating_sub(SEEN).max(slice.start);
        seek(&mut input.cursor, first);
        let start = input.cursor.offset().max(slice.start);
        let mut window = Window {
            cursor: input.cursor,
            slice,
            span,
            chunks: Vec::new(),
            gone: 0,
            kept: Span { start, end: start },
            is_last: false,
            grows: GROWS.0,
        };
        window.take();
        window.reach(span.start.saturating_add(window.grows));
        Ok(window)
    }

    /// Takes the chunk at which the cursor stands.
    fn take(&mut self) {
        let bytes = part_of(self.cursor.chunk(), self.cursor.offset(), self.slice);
        if !bytes.is_empty() {
            self.chunks.push(chunk(bytes));
            self.kept.end = self.kept.end.saturating_add(bytes.len());
        }
        self.is_last = self.kept.end >= self.slice.end || self.cursor.total_bytes().is_some_and(|total| self.kept.end >= total);
    }

    /// Goes on until the window ends at a place or behind it, or with the text.
    fn reach(&mut self, place: usize) {
        while self.kept.end < place && !self.is_last {
            if self.cursor.advance() {
                self.take();
            } else {
                self.is_last = true;
            }
        }
    }

    /// Goes on so far that a search from this place need not look at the same bytes too often.
    fn grow(&mut self, from: usize) {
        let by = self.grows.max(self.kept.end.saturating_sub(from));
        self.grows = (self.grows * 2).min(GROWS.1);
        self.reach(self.kept.end.max(from).saturating_add(by));
    }

    /// Lets the chunks go that end more than four bytes before a place.
    fn let_go(&mut self, place: usize) {
        let first = place.saturating_sub(SEEN);
        while let Some(chunk) = self.chunks.get(self.gone).filter(|chunk| self.kept.start + chunk.len() <= first) {
            self.kept.start += chunk.len();
            self.gone += 1;
        }
        if self.gone > self.chunks.len() / 2 {
            self.chunks.drain(..self.gone);
            self.gone = 0;
        }
    }

    /// Where the range ends in the text, or the slice or the text where that comes first.
    pub(crate) fn range_end(&mut self) -> usize {
        self.reach(self.span.end);
        self.span.end.min(self.kept.end)
    }

    /// The match from a place on.
    pub(crate) fn find(&mut self, loan: &mut Loan<'_>, from: usize) -> Result<Option<Match>, Error> {
        let base = self.slice.start;
        let (mut from, end) = (from - base, self.span.end - base);
        let mut found = Match::default();
        loop {
            let window = sys::zf_window { start: self.kept.start - base, is_last: self.is_last.into() };
            let chunks = self.chunks();
            // SAFETY: the loan's handle is full and used here alone, and the chunks are borrowed.
            let status = unsafe {
                sys::zf_window_find(loan.handle(), chunks.as_ptr().cast(), chunks.len(), &window, &mut from, end, &mut found.0)
            };
            match status {
                sys::ZF_MORE_AFTER => {
                    self.let_go(base + from);
                    self.grow(base + from);
                }
                // The cursor doesn't go back to where the search begins.
                sys::ZF_MORE_BEFORE => return Err(Error::Outside),
                _ => return Ok(told(status)?.then(|| found.moved(base))),
            }
        }
    }

    /// What is left of the range, from four bytes before a place to five behind its end, which tells that the text goes on.
    pub(crate) fn rest(&mut self, from: usize) -> Text<'t> {
        self.let_go(from);
        self.reach(self.span.end.saturating_add(SEEN + 1));
        let chunks = self.chunks.split_off(self.gone);
        Text::gathered(chunks, self.kept.start, Span { start: from, end: self.span.end })
    }

    /// The chunks that are kept, from four bytes before a match to four behind it, as far as the text has these; and where they begin.
    pub(crate) fn around(&mut self, found: Match) -> (&[Chunk<'t>], usize) {
        self.reach(found.end().saturating_add(SEEN));
        (self.chunks(), self.kept.start)
    }

    /// The chunks that are kept.
    fn chunks(&self) -> &[Chunk<'t>] {
        &self.chunks[self.gone..]
    }
}
