//! Streams: a search of a text that is still coming in.

use crate::error::{Error, told};
use crate::groups::Match;
use crate::pool::{Handle, Own};
use std::ops::Range;
use zorfelith_sys as sys;

/// A search of a text that is still coming in, as from a pipe or a socket, which [`Regex::stream`](crate::Regex::stream) begins.
///
/// The matches are those of [`find_iter`](crate::Regex::find_iter) in the whole text, each once and in order, however the text was cut. Each
/// is told once it is known that nothing that follows can change it. What was told before the end is a beginning of the list of each text that may still
/// come. Places are those of the whole stream.
///
/// The stream keeps the bytes that it may read again: those of the match under way, and some before. It has a cache of its own.
///
/// ```
/// use zorfelith::Regex;
///
/// let mut stream = Regex::new("[0-9]{4}-[0-9]{2}")?.stream()?;
/// let mut found = Vec::new();
/// for chunk in ["due 20", "26-11, paid 2027", "-01"] {
///     stream.feed(chunk)?;
///     while let Some(date) = stream.next_match() {
///         found.push((date.range(), stream.bytes_of(date)));
///     }
/// }
/// stream.finish();
/// while let Some(date) = stream.next_match() {
///     found.push((date.range(), stream.bytes_of(date)));
/// }
/// assert_eq!(found, [(4..11, b"2026-11".to_vec()), (18..25, b"2027-01".to_vec())]);
/// # Ok::<(), zorfelith::Error>(())
/// ```
pub struct StreamSearcher(Own);

impl StreamSearcher {
    /// A stream of which nothing has come yet, by a full handle.
    pub(crate) fn new(handle: Handle) -> Result<StreamSearcher, Error> {
        let stream = StreamSearcher(Own::new(handle));
        // SAFETY: the handle is full and used here alone.
        told(unsafe { sys::zf_stream_new(stream.0.handle()) })?;
        Ok(stream)
    }

    /// Lets the stream keep at most so many bytes after a `feed`. Before the first call there is no limit.
    pub fn set_limit(&mut self, limit: usize) {
        // SAFETY: the handle is used here alone.
        unsafe { sys::zf_stream_limit(self.0.handle(), limit) };
    }

    /// Feeds the next bytes of the stream. It takes all of them or none: after an error the stream goes on as if the call hadn't been.
    ///
    /// The errors are, the first that applies: `Finished`; `TooLong`, if the stream would have `usize::MAX` bytes or more; `Limit`, if it would
    /// keep more bytes than its limit; `Memory`.
    pub fn feed(&mut self, bytes: impl AsRef<[u8]>) -> Result<(), Error> {
        let bytes = bytes.as_ref();
        // SAFETY: the handle is used here alone, and the bytes are borrowed for the call.
        told(unsafe { sys::zf_stream_feed(self.0.handle(), bytes.as_ptr(), bytes.len()) })?;
        Ok(())
    }

    /// The next match. `None`: none is told until more is fed, and once the stream is finished there are no more.
    ///
    /// A match may come some bytes after its last one: it has to be sure that no longer one is there, and what assertions behind it see.
    pub fn next_match(&mut self) -> Option<Match> {
        let mut found = Match::default();
        // SAFETY: the handle is used here alone.
        let status = unsafe { sys::zf_stream_next(self.0.handle(), &mut found.0) };
        (status == sys::ZF_FOUND).then_some(found)
    }

    /// Says that no more follows, so that `next_match` tells all that is left.
    pub fn finish(&mut self) {
        // SAFETY: the handle is used here alone.
        unsafe { sys::zf_stream_finish(self.0.handle()) };
    }

    /// Which bytes of the stream are kept. Those of a match are, until the next `feed`.
    pub fn kept_range(&self) -> Range<usize> {
        let kept = self.copy_kept(&mut []);
        kept.start..kept.start + kept.len
    }

    /// The bytes that are kept.
    pub fn kept(&self) -> Vec<u8> {
        let mut bytes = vec![0; self.kept_range().len()];
        self.copy_kept(&mut bytes);
        bytes
    }

    /// The bytes of a match, as far as they are kept. For those of many matches take `kept` once after each `feed`, since it copies all bytes.
    pub fn bytes_of(&self, found: Match) -> Vec<u8> {
        let (kept, range) = (self.kept(), self.kept_range());
        let place = |at: usize| at.clamp(range.start, range.end) - range.start;
        kept[place(found.start())..place(found.end())].to_vec()
    }

    /// Copies what is kept, if there is room for it, and tells where it stands.
    fn copy_kept(&self, place: &mut [u8]) -> sys::zf_kept {
        let mut kept = sys::zf_kept::default();
        // SAFETY: the handle is used here alone, and the place is borrowed for the call; a slice's pointer is never null.
        unsafe { sys::zf_stream_kept(self.0.handle(), place.as_mut_ptr(), place.len(), &mut kept) };
        kept
    }
}
