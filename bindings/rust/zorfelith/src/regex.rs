//! The regex, and its searches.

use crate::builder::Builder;
use crate::cursor::Cursor;
use crate::error::{Error, refused, told};
use crate::groups::{Captures, GroupInfo, Match};
use crate::input::{Anchored, Input, WHOLE};
use crate::iter::{CapturesMatches, FindMatches, Split, SplitN};
use crate::live::LiveMatches;
use crate::order;
use crate::pool::{Handle, Loan, Pool, locked};
use crate::search::{Search, Source, found_in};
use crate::steps::Stepper;
use crate::stream::StreamSearcher;
use crate::text::{Text, at_hand};
use std::fmt;
use std::sync::{Arc, Mutex};
use zorfelith_sys as sys;

/// What is compiled, which all clones of a regex read.
pub(crate) struct Compiled {
    /// It makes the handles that search, and searches nothing itself.
    pub(crate) handle: Mutex<Handle>,
    pub(crate) groups: Arc<GroupInfo>,
}

impl Drop for Compiled {
    /// The last clone drops it, after all that the others did with its handle.
    fn drop(&mut self) {
        order::after(&self.handle);
    }
}

/// Compiled patterns.
///
/// Searches take `&self`, and many threads may search at once. Each search borrows a cache from a pool, and makes one where all are on loan; the
/// first thread that searches takes its own without a lock. A clone shares what is compiled, and has a pool of its own: with a clone for each
/// thread, no search takes a lock.
pub struct Regex {
    pub(crate) compiled: Arc<Compiled>,
    pub(crate) pool: Pool,
}

impl Clone for Regex {
    /// The same patterns, which aren't compiled again, with caches of its own.
    fn clone(&self) -> Regex {
        Regex { compiled: Arc::clone(&self.compiled), pool: Pool::new() }
    }
}

impl fmt::Debug for Regex {
    fn fmt(&self, f: &mut fmt::Formatter<'_>) -> fmt::Result {
        f.debug_struct("Regex").field("pattern_len", &self.pattern_len()).finish_non_exhaustive()
    }
}

/// What the beginning of a text tells of a search, whatever follows.
#[derive(Clone, Copy, Debug, PartialEq, Eq)]
pub enum Partial {
    /// The match of each text that goes on from it.
    Final(Match),
    /// No match of such a text begins before this place.
    From(usize),
}

impl Regex {
    /// Compiles a pattern under the default settings.
    pub fn new(pattern: &str) -> Result<Regex, Error> {
        Builder::new().build(pattern)
    }

    /// Compiles patterns under the default settings.
    pub fn new_many<P: AsRef<str>>(patterns: &[P]) -> Result<Regex, Error> {
        Builder::new().build_many(patterns)
    }

    /// Settings, to build a regex by.
    pub fn builder() -> Builder {
        Builder::new()
    }

    /// A handle for a search.
    #[inline]
    pub(crate) fn lend(&self) -> Result<Loan<'_>, Error> {
        self.pool.lend(&self.compiled.handle)
    }

    /// Whether there is a match.
    #[inline]
    pub fn is_match<'t, C: Cursor<'t>>(&self, input: impl Into<Input<C>>) -> Result<bool, Error> {
        let input = input.into();
        if input.anchored == Anchored::No {
            let answer = at_hand(&input, |chunks| {
                let mut loan = self.lend()?;
                let (first, count) = (chunks.as_ptr().cast(), chunks.len());
                // SAFETY: the loan's handle is full and used here alone, and the chunks are borrowed.
                told(unsafe { sys::zf_is_match(loan.handle(), first, count, input.span.start, input.span.end) })
            });
            if let Some(answer) = answer {
                return answer;
            }
        }
        Ok(self.find(input)?.is_some())
    }

    /// The match.
    #[inline]
    pub fn find<'t, C: Cursor<'t>>(&self, input: impl Into<Input<C>>) -> Result<Option<Match>, Error> {
        let input = input.into();
        let anchored = input.anchored;
        match at_hand(&input, |chunks| found_in(chunks, &mut self.lend()?, anchored, input.span)) {
            Some(answer) => answer,
            None => self.find_elsewhere(input),
        }
    }

    /// The match in a text whose chunks aren't at hand.
    fn find_elsewhere<'t, C: Cursor<'t>>(&self, input: Input<C>) -> Result<Option<Match>, Error> {
        let anchored = input.anchored;
        let mut source = Source::new(input)?;
        let from = source.start();
        source.find(&mut self.lend()?, anchored, from)
    }

    /// The last match that begins before a place, of those that `find_iter` gives.
    pub fn find_last<'t, C: Cursor<'t>>(&self, input: impl Into<Input<C>>, place: usize) -> Result<Option<Match>, Error> {
        let mut input = input.into();
        if input.anchored == Anchored::Yes {
            let mut last = None;
            for found in self.find_iter(input) {
                let found = found?;
                if found.start() >= place {
                    break;
                }
                last = Some(found);
            }
            return Ok(last);
        }
        let text = Text::whole(&mut input)?;
        let mut loan = self.lend()?;
        let mut found = Match::default();
        let place = place.saturating_sub(text.base);
        // SAFETY: the loan's handle is full and used here alone, and the chunks are borrowed.
        let status = unsafe { sys::zf_find_last(loan.handle(), text.first(), text.count(), text.start, text.end, place, &mut found.0) };
        Ok(told(status)?.then(|| found.moved(text.base)))
    }

    /// What the beginning of a text tells of a search from the start of the range on, where more bytes may follow it. The range has no end here.
    pub fn find_partial<'t, C: Cursor<'t>>(&self, input: impl Into<Input<C>>) -> Result<Partial, Error> {
        let mut input = input.into();
        if input.anchored == Anchored::Yes || input.slice != WHOLE {
            return Err(Error::Unsupported);
        }
        let text = Text::whole(&mut input)?;
        let mut loan = self.lend()?;
        let (mut found, mut from) = (Match::default(), 0);
        // SAFETY: the loan's handle is full and used here alone, and the chunks are borrowed.
        let status = unsafe { sys::zf_find_partial(loan.handle(), text.first(), text.count(), text.start, &mut found.0, &mut from) };
        Ok(if told(status)? { Partial::Final(found) } else { Partial::From(from) })
    }

    /// The match with its groups.
    pub fn captures<'t, C: Cursor<'t>>(&self, input: impl Into<Input<C>>) -> Result<Option<Captures>, Error> {
        let input = input.into();
        let anchored = input.anchored;
        let mut source = Source::new(input)?;
        let mut loan = self.lend()?;
        let from = source.start();
        let found = source.find(&mut loan, anchored, from)?;
        found.map(|found| source.captures(self, &mut loan, found)).transpose()
    }

    /// The numbers of the patterns that have a match in the range, the least first.
    pub fn which_patterns<'t, C: Cursor<'t>>(&self, input: impl Into<Input<C>>) -> Result<Vec<usize>, Error> {
        let mut input = input.into();
        if input.anchored == Anchored::Yes {
            return Err(Error::Unsupported);
        }
        let text = Text::whole(&mut input)?;
        let mut loan = self.lend()?;
        let mut marks = vec![0; self.pattern_len()];
        // SAFETY: the loan's handle is full and used here alone, and each slice is borrowed for the call.
        let status = unsafe {
            sys::zf_which_patterns(
                loan.handle(),
                text.first(),
                text.count(),
                text.start,
                text.end,
                marks.as_mut_ptr(),
                marks.len(),
            )
        };
        told(status)?;
        Ok((0..marks.len()).filter(|&pattern| marks[pattern] == 1).collect())
    }

    /// The matches, from left to right.
    pub fn find_iter<'t, C: Cursor<'t>>(&self, input: impl Into<Input<C>>) -> FindMatches<'_, 't, C> {
        FindMatches::new(self, input.into())
    }

    /// The matches with their groups, from left to right.
    pub fn captures_iter<'t, C: Cursor<'t>>(&self, input: impl Into<Input<C>>) -> CapturesMatches<'_, 't, C> {
        CapturesMatches(self.find_iter(input))
    }

    /// The pieces of the text between its matches in the range, from left to right. The first begins with the text, and the last ends with the
    /// range.
    pub fn split<'t, C: Cursor<'t>>(&self, input: impl Into<Input<C>>) -> Split<'_, 't, C> {
        Split::new(self.find_iter(input))
    }

    /// The same, but at most so many pieces, of which the last is the rest.
    pub fn splitn<'t, C: Cursor<'t>>(&self, input: impl Into<Input<C>>, limit: usize) -> SplitN<'_, 't, C> {
        SplitN::new(self.split(input), limit)
    }

    /// The bytes of the range in which the first match is replaced by what the function makes of it.
    pub fn replace<'t, C: Cursor<'t>, R: AsRef<[u8]>>(
        &self,
        input: impl Into<Input<C>>,
        replacement: impl FnMut(&Captures) -> R,
    ) -> Result<Vec<u8>, Error> {
        self.replacen(input, 1, replacement)
    }

    /// The bytes of the range in which each match is replaced by what the function makes of it.
    pub fn replace_all<'t, C: Cursor<'t>, R: AsRef<[u8]>>(
        &self,
        input: impl Into<Input<C>>,
        replacement: impl FnMut(&Captures) -> R,
    ) -> Result<Vec<u8>, Error> {
        self.replacen(input, 0, replacement)
    }

    /// The bytes of the range in which the first matches, at most `limit`, are replaced by what the function makes of them. A limit of 0 is
    /// none.
    pub fn replacen<'t, C: Cursor<'t>, R: AsRef<[u8]>>(
        &self,
        input: impl Into<Input<C>>,
        limit: usize,
        mut replacement: impl FnMut(&Captures) -> R,
    ) -> Result<Vec<u8>, Error> {
        let mut input = input.into();
        let anchored = input.anchored;
        let text = Text::whole(&mut input)?;
        let (mut at, end, base) = (text.start, text.end, text.base);
        let mut search = Search::new(self, Source::<C>::Text(text), anchored)?;
        let mut out = Vec::new();
        for _ in 0..if limit == 0 { usize::MAX } else { limit } {
            let Some(found) = search.next_match()? else { break };
            search.copy(at, found.start() - base, &mut out);
            out.extend_from_slice(replacement(&search.captures(found)?).as_ref());
            at = found.end() - base;
        }
        search.copy(at, end, &mut out);
        Ok(out)
    }

    /// The bytes of the whole text in which each match is replaced by a template, and how many were. In a template `${1}` and `${name}` are
    /// the bytes of a group, or none if it took no part, and `$$` is a `$`. Of the input, the text alone counts.
    pub fn replace_by<'t, C: Cursor<'t>>(&self, input: impl Into<Input<C>>, template: &str) -> Result<(Vec<u8>, usize), Error> {
        let mut input = input.into();
        input.set_slice(..);
        let text = Text::whole(&mut input)?;
        let mut loan = self.lend()?;
        let (mut out, mut replaced) = (Vec::new(), sys::zf_replaced::default());
        loop {
            // SAFETY: the loan's handle is full and used here alone, and each slice is borrowed for the call; a slice's pointer is never null.
            let status = unsafe {
                sys::zf_replace(
                    loan.handle(),
                    text.first(),
                    text.count(),
                    template.as_ptr(),
                    template.len(),
                    out.as_mut_ptr(),
                    out.len(),
                    &mut replaced,
                )
            };
            match status {
                sys::ZF_DONE => break,
                sys::ZF_SHORT => out.resize(replaced.len, 0),
                sys::ZF_SYNTAX => return Err(Error::Template { at: replaced.at }),
                _ => return Err(refused(status)),
            }
        }
        out.truncate(replaced.len);
        Ok((out, replaced.count))
    }

    /// The match from the start of the range on, and what such a template puts in its place. The range has no end here.
    pub fn replacement_by<'t, C: Cursor<'t>>(&self, input: impl Into<Input<C>>, template: &str) -> Result<Option<(Match, Vec<u8>)>, Error> {
        let mut input = input.into();
        if input.anchored == Anchored::Yes || input.slice != WHOLE {
            return Err(Error::Unsupported);
        }
        let text = Text::whole(&mut input)?;
        let mut loan = self.lend()?;
        let (mut out, mut replacement) = (Vec::new(), sys::zf_replacement::default());
        loop {
            // SAFETY: the loan's handle is full and used here alone, and each slice is borrowed for the call; a slice's pointer is never null.
            let status = unsafe {
                sys::zf_replace_one(
                    loan.handle(),
                    text.first(),
                    text.count(),
                    text.start,
                    template.as_ptr(),
                    template.len(),
                    out.as_mut_ptr(),
                    out.len(),
                    &mut replacement,
                )
            };
            match status {
                sys::ZF_DONE => return Ok(None),
                sys::ZF_FOUND => break,
                sys::ZF_SHORT => out.resize(replacement.len, 0),
                sys::ZF_SYNTAX => return Err(Error::Template { at: replacement.at }),
                _ => return Err(refused(status)),
            }
        }
        out.truncate(replacement.len);
        Ok(Some((Match(replacement.found), out)))
    }

    /// The list of all matches of a text, which is kept under edits of the text.
    pub fn live<'t, C: Cursor<'t>>(&self, input: impl Into<Input<C>>) -> Result<LiveMatches, Error> {
        LiveMatches::new(locked(&self.compiled.handle, Handle::share)?, input.into())
    }

    /// Begins a search of a text that is still coming in.
    pub fn stream(&self) -> Result<StreamSearcher, Error> {
        StreamSearcher::new(locked(&self.compiled.handle, Handle::share)?)
    }

    /// Begins a search in slices, from a place of a text on. Nothing is searched yet.
    pub fn steps(&self, start: usize) -> Result<Stepper, Error> {
        Stepper::new(locked(&self.compiled.handle, Handle::share)?, start)
    }

    /// How many patterns there are.
    pub fn pattern_len(&self) -> usize {
        self.compiled.groups.pattern_len()
    }

    /// The groups of each pattern, and their names.
    pub fn group_info(&self) -> &Arc<GroupInfo> {
        &self.compiled.groups
    }

    /// About how many bytes the patterns take. Each cache comes on top.
    pub fn memory_usage(&self) -> usize {
        self.memory_parts().patterns
    }

    /// About how many bytes a cache takes before its first search. There is one for each search at a time.
    pub fn cache_memory_usage(&self) -> usize {
        self.memory_parts().cache
    }

    fn memory_parts(&self) -> sys::zf_parts {
        let mut parts = sys::zf_parts::default();
        // SAFETY: the handle is locked.
        locked(&self.compiled.handle, |handle| unsafe { sys::zf_memory_parts(&mut handle.0, &mut parts) });
        parts
    }
}
