//! Live lists: all matches of a text, kept under edits of the text.

use crate::cursor::Cursor;
use crate::error::{Error, told};
use crate::groups::Match;
use crate::input::Input;
use crate::pool::{Handle, Own};
use crate::text::Text;
use std::ops::Range;
use zorfelith_sys as sys;

pub use zorfelith_sys::zf_change as Change;

/// The list of all matches of a text, which [`Regex::live`](crate::Regex::live) makes. After an edit of the text it searches only what the edit
/// may have changed. The text itself isn't kept.
///
/// ```
/// use zorfelith::Regex;
///
/// let mut dates = Regex::new("[0-9]{4}")?.live(&["due 2026", ", paid 2027"])?;
/// assert_eq!(dates.len()?, 2);
/// // ", paid" becomes ", then paid".
/// // SAFETY: the text is the old one, but for 5 bytes at 9.
/// let change = unsafe { dates.edit(9..9, 5, "due 2026, then paid 2027")? };
/// assert_eq!(change.dropped, change.added);
/// assert_eq!(dates.next(9)?.map(|found| found.range()), Some(20..24));
/// assert_eq!(dates.previous(9)?.map(|found| found.range()), Some(4..8));
/// # Ok::<(), zorfelith::Error>(())
/// ```
pub struct LiveMatches(Own);

impl LiveMatches {
    /// The list of a text, by a full handle.
    pub(crate) fn new<'t, C: Cursor<'t>>(handle: Handle, input: Input<C>) -> Result<LiveMatches, Error> {
        let text = Text::alone(input)?;
        let list = LiveMatches(Own::new(handle));
        // SAFETY: the handle is used here alone, and the chunks are borrowed.
        told(unsafe { sys::zf_live_new(list.0.handle(), text.first(), text.count()) })?;
        Ok(list)
    }

    /// Keeps the list under an edit of its text: the bytes of the range were replaced by so many others. The text is handed over as it is now,
    /// cut in any way. Out of memory the list is gone; any other error leaves that of the old text.
    ///
    /// # Safety
    ///
    /// If the lengths fit, the text is that of the list, but for the bytes that were replaced.
    pub unsafe fn edit<'t, C: Cursor<'t>>(
        &mut self,
        replaced: Range<usize>,
        inserted: usize,
        text: impl Into<Input<C>>,
    ) -> Result<Change, Error> {
        let text = Text::alone(text.into())?;
        let mut change = Change::default();
        // SAFETY: the handle is used here alone, the chunks are borrowed, and the rest is what this call asks.
        told(unsafe {
            sys::zf_live_edit(self.0.handle(), replaced.start, replaced.end, inserted, text.first(), text.count(), &mut change)
        })?;
        Ok(change)
    }

    /// How many matches there are.
    pub fn len(&self) -> Result<usize, Error> {
        let mut len = 0;
        // SAFETY: the handle is used here alone.
        told(unsafe { sys::zf_live_len(self.0.handle(), &mut len) })?;
        Ok(len)
    }

    /// Whether there are none.
    pub fn is_empty(&self) -> Result<bool, Error> {
        Ok(self.len()? == 0)
    }

    /// The match with this index.
    pub fn get(&self, index: usize) -> Result<Option<Match>, Error> {
        let mut found = Match::default();
        // SAFETY: the handle is used here alone.
        let status = unsafe { sys::zf_live_get(self.0.handle(), index, &mut found.0) };
        Ok(told(status)?.then_some(found))
    }

    /// The first match that begins at a place or later.
    pub fn next(&self, place: usize) -> Result<Option<Match>, Error> {
        let mut found = Match::default();
        // SAFETY: the handle is used here alone.
        let status = unsafe { sys::zf_live_next(self.0.handle(), place, &mut found.0) };
        Ok(told(status)?.then_some(found))
    }

    /// The last match that begins before a place.
    pub fn previous(&self, place: usize) -> Result<Option<Match>, Error> {
        let mut found = Match::default();
        // SAFETY: the handle is used here alone.
        let status = unsafe { sys::zf_live_previous(self.0.handle(), place, &mut found.0) };
        Ok(told(status)?.then_some(found))
    }

    /// The first matches that touch a window, as many as the batch has places. If these aren't all places, no more touch it.
    pub fn window<'b>(&self, window: Range<usize>, batch: &'b mut [Match]) -> Result<&'b [Match], Error> {
        let mut count = 0;
        // SAFETY: the handle is used here alone, and a `Match` is a `zf_match`.
        told(unsafe {
            sys::zf_live_window(self.0.handle(), window.start, window.end, batch.as_mut_ptr().cast(), batch.len(), &mut count)
        })?;
        Ok(&batch[..count])
    }
}
