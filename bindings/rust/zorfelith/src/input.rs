//! What is searched: a text, a range of it, and how a match may begin.

use crate::cursor::{Cursor, IntoCursor};
use crate::text::copied;
use std::ops::{Bound, Range, RangeBounds};

/// A range of a text, in bytes.
#[derive(Clone, Copy, Debug, Default, PartialEq, Eq, Hash)]
pub struct Span {
    /// Where it starts.
    pub start: usize,
    /// Where it ends, without the byte there.
    pub end: usize,
}

impl Span {
    /// The same as a range.
    #[inline]
    pub fn range(&self) -> Range<usize> {
        self.start..self.end
    }

    /// How many bytes it has.
    #[inline]
    pub fn len(&self) -> usize {
        self.end.saturating_sub(self.start)
    }

    /// Whether it has no bytes.
    #[inline]
    pub fn is_empty(&self) -> bool {
        self.start >= self.end
    }
}

impl From<Range<usize>> for Span {
    #[inline]
    fn from(range: Range<usize>) -> Span {
        Span { start: range.start, end: range.end }
    }
}

impl From<Span> for Range<usize> {
    #[inline]
    fn from(span: Span) -> Range<usize> {
        span.range()
    }
}

impl PartialEq<Range<usize>> for Span {
    fn eq(&self, range: &Range<usize>) -> bool {
        self.start == range.start && self.end == range.end
    }
}

/// Where a match may begin.
#[derive(Clone, Copy, Debug, Default, PartialEq, Eq, Hash)]
pub enum Anchored {
    /// Anywhere in the range.
    #[default]
    No,
    /// Where the range does. Of an iteration, the next match begins where the one before ended.
    Yes,
}

/// A text and what of it is searched. Assertions, as `^` and `\b`, see the whole text, or the slice if one is set.
///
/// ```
/// use zorfelith::{Anchored, Input, Regex};
///
/// let regex = Regex::new("^b")?;
/// let text = ["a", "bab"];
/// assert_eq!(regex.find(Input::new(&text).range(1..))?, None);
/// assert_eq!(regex.find(Input::new(&text).slice(1..))?.unwrap().range(), 1..2);
/// let regex = Regex::new("b")?;
/// assert!(regex.is_match(Input::new(&text).range(1..).anchored(Anchored::Yes))?);
/// assert!(!regex.is_match(Input::new(&text).range(2..).anchored(Anchored::Yes))?);
/// # Ok::<(), zorfelith::Error>(())
/// ```
#[derive(Clone, Copy, Debug)]
pub struct Input<C> {
    pub(crate) cursor: C,
    pub(crate) span: Span,
    pub(crate) slice: Span,
    pub(crate) anchored: Anchored,
}

/// The slice that leaves nothing out.
pub(crate) const WHOLE: Span = Span { start: 0, end: usize::MAX };

/// The bounds of a range as a span.
fn bounds(range: impl RangeBounds<usize>) -> Span {
    let start = match range.start_bound() {
        Bound::Included(&start) => start,
        Bound::Excluded(&before) => before.saturating_add(1),
        Bound::Unbounded => 0,
    };
    let end = match range.end_bound() {
        Bound::Included(&last) => last.saturating_add(1),
        Bound::Excluded(&end) => end,
        Bound::Unbounded => usize::MAX,
    };
    Span { start, end }
}

impl<C> Input<C> {
    /// A text, from where the chunk begins at which its cursor stands up to its end.
    #[inline]
    pub fn new<'t, T: IntoCursor<Cursor = C>>(text: T) -> Input<C>
    where
        C: Cursor<'t>,
    {
        let cursor = text.into_cursor();
        let span = Span { start: cursor.offset(), end: usize::MAX };
        Input { cursor, span, slice: WHOLE, anchored: Anchored::No }
    }

    /// The same text in this range. It may end behind the text, and then ends with it.
    #[inline]
    pub fn range(mut self, range: impl RangeBounds<usize>) -> Input<C> {
        self.set_range(range);
        self
    }

    /// The same text in this range.
    #[inline]
    pub fn span(mut self, span: impl Into<Span>) -> Input<C> {
        self.set_span(span);
        self
    }

    /// A part of the text as a text of its own, of which the whole is searched: `^` matches at its start, and no `\b` sees what is outside.
    /// Places are still those of the text.
    #[inline]
    pub fn slice(mut self, range: impl RangeBounds<usize>) -> Input<C> {
        self.set_slice(range);
        self
    }

    /// The same, with matches that may begin there.
    #[inline]
    pub fn anchored(mut self, anchored: Anchored) -> Input<C> {
        self.set_anchored(anchored);
        self
    }

    /// Sets the range.
    #[inline]
    pub fn set_range(&mut self, range: impl RangeBounds<usize>) {
        self.span = bounds(range);
    }

    /// Sets the range.
    #[inline]
    pub fn set_span(&mut self, span: impl Into<Span>) {
        self.span = span.into();
    }

    /// Sets where the range starts.
    #[inline]
    pub fn set_start(&mut self, start: usize) {
        self.span.start = start;
    }

    /// Sets where the range ends.
    #[inline]
    pub fn set_end(&mut self, end: usize) {
        self.span.end = end;
    }

    /// Sets the slice, and the range to the same.
    #[inline]
    pub fn set_slice(&mut self, range: impl RangeBounds<usize>) {
        self.slice = bounds(range);
        self.span = self.slice;
    }

    /// Sets where a match may begin.
    #[inline]
    pub fn set_anchored(&mut self, anchored: Anchored) {
        self.anchored = anchored;
    }

    /// Where the range starts.
    #[inline]
    pub fn start(&self) -> usize {
        self.span.start
    }

    /// Where the range ends; `usize::MAX` where that is the text's end.
    #[inline]
    pub fn end(&self) -> usize {
        self.span.end
    }

    /// The range.
    #[inline]
    pub fn get_span(&self) -> Span {
        self.span
    }

    /// Where a match may begin.
    #[inline]
    pub fn get_anchored(&self) -> Anchored {
        self.anchored
    }

    /// Whether the range starts behind its end.
    #[inline]
    pub fn is_done(&self) -> bool {
        self.span.start > self.span.end
    }

    /// Puts the bytes of the range, as far as the text has them, behind those of `out`.
    pub fn copy_to<'t>(mut self, out: &mut Vec<u8>)
    where
        C: Cursor<'t>,
    {
        copied(&mut self.cursor, self.span, out);
    }
}

impl<'t, T: IntoCursor> From<T> for Input<T::Cursor>
where
    T::Cursor: Cursor<'t>,
{
    #[inline]
    fn from(text: T) -> Input<T::Cursor> {
        Input::new(text)
    }
}
