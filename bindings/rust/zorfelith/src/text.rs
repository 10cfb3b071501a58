//! A text as it is handed to the library: an array of its chunks, and the range that is searched.

use crate::cursor::{Chunk, Cursor, chunk};
use crate::error::Error;
use crate::input::{Anchored, Input, Span, WHOLE};
use zorfelith_sys as sys;

/// An array of chunks: one that is there, one of a single chunk, or one that was gathered from a cursor. No byte is copied for it.
enum Array<'t> {
    Lent(&'t [Chunk<'t>]),
    One([Chunk<'t>; 1]),
    Gathered(Vec<Chunk<'t>>),
}

/// All chunks of a text or of a slice of it, and the range, in bytes from `base` on.
pub(crate) struct Text<'t> {
    array: Array<'t>,
    /// Where the slice begins.
    pub(crate) base: usize,
    pub(crate) start: usize,
    pub(crate) end: usize,
}

/// Calls a function with the chunks of an input, if they are at hand: they lie in an array, or there is one.
#[inline]
pub(crate) fn at_hand<'t, C: Cursor<'t>, R>(input: &Input<C>, call: impl FnOnce(&[Chunk<'t>]) -> R) -> Option<R> {
    if input.slice != WHOLE {
        return None;
    }
    if let Some(chunks) = input.cursor.chunks() {
        return Some(call(chunks));
    }
    let there = input.cursor.chunk();
    (input.cursor.total_bytes() == Some(there.len())).then(|| call(&[chunk(there)]))
}

impl<'t> Text<'t> {
    /// The text of an input whose chunks are at hand.
    pub(crate) fn at_hand<C: Cursor<'t>>(input: &Input<C>) -> Option<Text<'t>> {
        let array = match input.cursor.chunks() {
            Some(chunks) if input.slice == WHOLE => Array::Lent(chunks),
            _ => at_hand(input, |chunks| chunks.first().map(|chunk| Array::One([*chunk])))??,
        };
        Some(Text { array, base: 0, start: input.span.start, end: input.span.end })
    }

    /// Chunks that were gathered from `base` on, and a range of the text.
    pub(crate) fn gathered(chunks: Vec<Chunk<'t>>, base: usize, span: Span) -> Text<'t> {
        Text { array: Array::Gathered(chunks), base, start: span.start - base, end: span.end - base }
    }

    /// The text of an input, for which the cursor goes over all of its slice.
    pub(crate) fn whole<C: Cursor<'t>>(input: &mut Input<C>) -> Result<Text<'t>, Error> {
        if let Some(text) = Text::at_hand(input) {
            return Ok(text);
        }
        let span = searched(input)?;
        let mut chunks = Vec::new();
        each(&mut input.cursor, input.slice, |bytes| chunks.push(chunk(bytes)));
        Ok(Text::gathered(chunks, input.slice.start, span))
    }

    /// The text of an input that has neither slice nor range, and of which a match may begin anywhere.
    pub(crate) fn alone<C: Cursor<'t>>(mut input: Input<C>) -> Result<Text<'t>, Error> {
        let is_whole = input.slice == WHOLE && input.span == WHOLE && input.anchored == Anchored::No;
        if is_whole { Text::whole(&mut input) } else { Err(Error::Unsupported) }
    }

    /// Its chunks.
    pub(crate) fn chunks(&self) -> &[Chunk<'t>] {
        match &self.array {
            Array::Lent(chunks) => chunks,
            Array::One(chunk) => chunk,
            Array::Gathered(chunks) => chunks,
        }
    }

    /// Where its chunks begin, as the library takes them.
    pub(crate) fn first(&self) -> *const sys::zf_bytes<'t> {
        self.chunks().as_ptr().cast()
    }

    /// How many chunks there are.
    pub(crate) fn count(&self) -> usize {
        self.chunks().len()
    }

    /// Where the range ends in the text, or the slice or the text where that comes first.
    pub(crate) fn range_end(&self) -> usize {
        let len = self.chunks().iter().fold(0, |len: usize, chunk| len.saturating_add(chunk.len()));
        self.base + self.end.min(len)
    }

    /// Puts bytes of it, counted from its base, behind those of `out`, as far as it has them.
    pub(crate) fn copy(&self, span: Span, out: &mut Vec<u8>) {
        let mut at: usize = 0;
        for chunk in self.chunks() {
            out.extend_from_slice(part_of(chunk.bytes(), at, span));
            at = at.saturating_add(chunk.len());
        }
    }
}

/// What of the range lies in the slice. It is outside if it starts behind its end, or if the slice begins behind the text.
pub(crate) fn searched<'t, C: Cursor<'t>>(input: &mut Input<C>) -> Result<Span, Error> {
    let (span, slice) = (input.span, input.slice);
    let start = span.start.max(slice.start);
    let end = span.end.min(slice.end);
    let is_reached = slice.start == 0 || {
        seek(&mut input.cursor, slice.start);
        chunk_end(&input.cursor) >= slice.start
    };
    if start <= end && is_reached { Ok(Span { start, end }) } else { Err(Error::Outside) }
}

/// The bytes of a chunk that begins at this place of a text, as far as they lie in the span.
pub(crate) fn part_of(bytes: &[u8], at: usize, span: Span) -> &[u8] {
    let low = span.start.saturating_sub(at).min(bytes.len());
    let high = span.end.saturating_sub(at).min(bytes.len());
    &bytes[low..high.max(low)]
}

/// Where the chunk of a cursor ends.
fn chunk_end<'t, C: Cursor<'t>>(cursor: &C) -> usize {
    cursor.offset().saturating_add(cursor.chunk().len())
}

/// Moves a cursor to the chunk that has the byte at a place, or as near as its text lets it come.
pub(crate) fn seek<'t, C: Cursor<'t>>(cursor: &mut C, place: usize) {
    while cursor.offset() > place && cursor.backtrack() {}
    while chunk_end(cursor) <= place && cursor.advance() {}
}

/// Calls a function with each chunk of a span, as far as the text has it. Chunks without bytes are left out.
fn each<'t, C: Cursor<'t>>(cursor: &mut C, span: Span, mut then: impl FnMut(&'t [u8])) {
    seek(cursor, span.start);
    loop {
        let bytes = part_of(cursor.chunk(), cursor.offset(), span);
        if !bytes.is_empty() {
            then(bytes);
        }
        if chunk_end(cursor) >= span.end || !cursor.advance() {
            return;
        }
    }
}

/// Puts the bytes of a span of a text behind those of `out`.
pub(crate) fn copied<'t, C: Cursor<'t>>(cursor: &mut C, span: Span, out: &mut Vec<u8>) {
    each(cursor, span, |bytes| out.extend_from_slice(bytes));
}
