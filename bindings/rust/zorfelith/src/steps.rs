//! Slices: a search of a long text, some bytes at a time.

use crate::cursor::Cursor;
use crate::error::{Error, told};
use crate::groups::Match;
use crate::input::Input;
use crate::pool::{Handle, Own};
use crate::text::Text;
use zorfelith_sys as sys;

/// How far a search in slices came.
#[derive(Clone, Copy, Debug, PartialEq, Eq)]
pub enum Progress {
    /// It ended with this answer.
    Done(Option<Match>),
    /// It hasn't ended: [`resume`](Stepper::resume) it.
    NotYet,
}

/// A search of a text in slices, which [`Regex::steps`](crate::Regex::steps) begins.
///
/// Each `resume` searches some bytes more, and returns. So a program can search a long text and go on with other things, and can stop at any
/// slice. The answer is that of one search of the whole text from the start on, however the slices are cut. It has a cache of its own.
///
/// ```
/// use zorfelith::{Progress, Regex};
///
/// let text = "no date here, ".repeat(1000) + "but 2026-11";
/// let mut search = Regex::new("[0-9]{4}-[0-9]{2}")?.steps(0)?;
/// let mut slices = 0;
/// let found = loop {
///     match search.resume(&text, 1024)? {
///         Progress::Done(found) => break found,
///         Progress::NotYet => slices += 1,
///     }
///     assert!(search.position() < text.len());
/// };
/// assert_eq!(found.unwrap().range(), 14004..14011);
/// assert_eq!(slices, 13);
/// # Ok::<(), zorfelith::Error>(())
/// ```
pub struct Stepper(Own);

impl Stepper {
    /// A search from a place on, by a full handle. Nothing is searched yet.
    pub(crate) fn new(handle: Handle, start: usize) -> Result<Stepper, Error> {
        let search = Stepper(Own::new(handle));
        // SAFETY: the handle is full and used here alone.
        told(unsafe { sys::zf_step_new(search.0.handle(), start) })?;
        Ok(search)
    }

    /// Begins anew from a place on, in this or in another text. The next match is sought from where the one before ended; if that gives an
    /// empty one that ends there too, from a byte later.
    pub fn start(&mut self, start: usize) {
        // SAFETY: the handle is used here alone.
        unsafe { sys::zf_step_start(self.0.handle(), start) };
    }

    /// Searches about so many bytes more. The text is handed over anew each time, whole, and may be cut in another way; if it was edited,
    /// `start` again.
    ///
    /// It may read again as many bytes as the budget, or more of them if something longer is under way, and then takes as many more. It always
    /// takes one at least. After `Done` the search stands as it was before the call. A pointer to each chunk is gathered at each call, unless
    /// the chunks lie in an array.
    pub fn resume<'t, C: Cursor<'t>>(&mut self, text: impl Into<Input<C>>, budget: usize) -> Result<Progress, Error> {
        let text = Text::alone(text.into())?;
        let mut found = Match::default();
        // SAFETY: the handle is used here alone, and the chunks are borrowed.
        let status = unsafe { sys::zf_step_resume(self.0.handle(), text.first(), text.count(), budget, &mut found.0) };
        if status == sys::ZF_MORE_AFTER {
            return Ok(Progress::NotYet);
        }
        Ok(Progress::Done(told(status)?.then_some(found)))
    }

    /// How many bytes of the text were looked at, or where the search begins.
    pub fn position(&self) -> usize {
        let mut position = 0;
        // SAFETY: the handle is used here alone.
        unsafe { sys::zf_step_position(self.0.handle(), &mut position) };
        position
    }
}
