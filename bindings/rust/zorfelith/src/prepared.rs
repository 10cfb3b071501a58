//! Prepared texts: chunks that keep their places, edited in place.

use crate::cursor::Chunk;
use crate::error::{Error, told};
use crate::groups::{Captures, Match};
use crate::input::{Anchored, Span};
use crate::regex::Regex;
use std::marker::PhantomData;
use std::ops::Range;
use std::ptr::null_mut;
use std::sync::Arc;
use zorfelith_sys as sys;

/// A text whose chunks keep the places where they begin. A search of it counts no chunks, and an edit takes time for the chunks that it replaces
/// and puts in, and for those between it and the edit before. Any regex may search it.
///
/// ```
/// use zorfelith::{Prepared, Regex, Span, chunk};
///
/// let mut text = Prepared::new(&[chunk(b"see 20"), chunk(b"26")])?;
/// let digits = Regex::new("[0-9]+")?;
/// assert_eq!(text.find(&digits, Span { start: 0, end: usize::MAX })?.map(|found| found.range()), Some(4..8));
/// text.edit(1..2, &[chunk(b"27 or "), chunk(b"so")])?;
/// assert_eq!(text.find(&digits, Span { start: 5, end: usize::MAX })?.map(|found| found.range()), Some(5..8));
/// # Ok::<(), zorfelith::Error>(())
/// ```
pub struct Prepared<'t> {
    text: sys::zf_text,
    chunks: PhantomData<&'t [u8]>,
}

// SAFETY: a text may go to another thread; it is written by calls that borrow it alone.
unsafe impl Send for Prepared<'_> {}

impl<'t> Prepared<'t> {
    /// The text of these chunks.
    pub fn new(chunks: &[Chunk<'t>]) -> Result<Prepared<'t>, Error> {
        let mut made = Prepared { text: sys::zf_text { full: 0, held: null_mut() }, chunks: PhantomData };
        // SAFETY: the text is borrowed alone, and the chunks outlive it.
        told(unsafe { sys::zf_text_new(&mut made.text, chunks.as_ptr().cast(), chunks.len()) })?;
        Ok(made)
    }

    /// Replaces the chunks with these indices by others. An `Err` leaves the text as it was.
    pub fn edit(&mut self, replaced: Range<usize>, chunks: &[Chunk<'t>]) -> Result<(), Error> {
        // SAFETY: the text is borrowed alone, and the chunks outlive it.
        told(unsafe { sys::zf_text_edit(&mut self.text, replaced.start, replaced.end, chunks.as_ptr().cast(), chunks.len()) })?;
        Ok(())
    }

    /// The match in a range.
    pub fn find(&mut self, regex: &Regex, span: Span) -> Result<Option<Match>, Error> {
        self.find_within(regex, span, Anchored::No)
    }

    /// The match that begins where the range does.
    pub fn match_at(&mut self, regex: &Regex, span: Span) -> Result<Option<Match>, Error> {
        self.find_within(regex, span, Anchored::Yes)
    }

    fn find_within(&mut self, regex: &Regex, span: Span, anchored: Anchored) -> Result<Option<Match>, Error> {
        let bounds = sys::zf_bounds { start: span.start, end: span.end, anchored: (anchored == Anchored::Yes).into() };
        let (mut loan, mut found) = (regex.lend()?, Match::default());
        // SAFETY: the handle and the text are borrowed alone.
        let status = unsafe { sys::zf_text_find(loan.handle(), &mut self.text, &bounds, &mut found.0) };
        Ok(told(status)?.then_some(found))
    }

    /// The match in a range, with its groups.
    pub fn captures(&mut self, regex: &Regex, span: Span) -> Result<Option<Captures>, Error> {
        let info = regex.group_info();
        let most = (0..info.pattern_len()).map(|pattern| info.group_len(pattern)).max().unwrap_or(0);
        let mut groups = vec![sys::zf_group { start: 0, end: 0 }; most];
        let (mut loan, mut found) = (regex.lend()?, Match::default());
        // SAFETY: the handle and the text are borrowed alone, and the slice for the call.
        let status = unsafe {
            sys::zf_text_find_groups(loan.handle(), &mut self.text, span.start, span.end, &mut found.0, groups.as_mut_ptr(), most)
        };
        if !told(status)? {
            return Ok(None);
        }
        groups.truncate(info.group_len(found.pattern()));
        Ok(Some(Captures { found, groups, info: Arc::clone(info) }))
    }

    /// The first matches in a range, as many as the batch has places. If these aren't all places, there are no more.
    pub fn matches<'b>(&mut self, regex: &Regex, span: Span, batch: &'b mut [Match]) -> Result<&'b [Match], Error> {
        let (mut loan, mut progress) = (regex.lend()?, sys::zf_progress::default());
        // SAFETY: the handle and the text are borrowed alone, and a `Match` is a `zf_match`.
        told(unsafe {
            sys::zf_restart(loan.handle(), span.start, 0);
            sys::zf_text_next(loan.handle(), &mut self.text, span.end, batch.as_mut_ptr().cast(), batch.len(), &mut progress)
        })?;
        Ok(&batch[..progress.count])
    }
}

impl Drop for Prepared<'_> {
    fn drop(&mut self) {
        // SAFETY: the text is borrowed alone.
        unsafe { sys::zf_text_free(&mut self.text) };
    }
}
