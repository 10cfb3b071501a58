//! One search after another in a text: a handle on loan, and how the next match is found.

use crate::cursor::{Chunk, Cursor};
use crate::error::{Error, told};
use crate::groups::{Captures, Match};
use crate::input::{Anchored, Input, Span};
use crate::pool::Loan;
use crate::regex::Regex;
use crate::text::Text;
use crate::window::Window;
use std::mem::MaybeUninit;
use std::sync::Arc;
use zorfelith_sys as sys;

/// The most matches that one call finds.
const BATCH: usize = 256;

/// The match in chunks, from a place on. Places are counted from where the chunks begin.
#[inline]
pub(crate) fn found_in(chunks: &[Chunk<'_>], loan: &mut Loan<'_>, anchored: Anchored, span: Span) -> Result<Option<Match>, Error> {
    let mut found = MaybeUninit::<sys::zf_match>::uninit();
    let call = match anchored {
        Anchored::No => sys::zf_find,
        Anchored::Yes => sys::zf_match_at,
    };
    // SAFETY: the loan's handle is full and used here alone, and the chunks are borrowed.
    let status = unsafe { call(loan.handle(), chunks.as_ptr().cast(), chunks.len(), span.start, span.end, found.as_mut_ptr()) };
    // SAFETY: with a match, it is written.
    Ok(told(status)?.then(|| Match(unsafe { found.assume_init() })))
}

/// A match with its groups, which are sought from its start to its end, in chunks that begin at `base`.
fn captured(regex: &Regex, loan: &mut Loan<'_>, chunks: &[Chunk<'_>], base: usize, found: Match) -> Result<Captures, Error> {
    let info = regex.group_info();
    let mut groups = vec![sys::zf_group { start: 0, end: 0 }; info.group_len(found.pattern())];
    let mut again = Match::default();
    // SAFETY: the loan's handle is full and used here alone, and each slice is borrowed for the call.
    told(unsafe {
        sys::zf_find_groups(
            loan.handle(),
            chunks.as_ptr().cast(),
            chunks.len(),
            found.start() - base,
            found.end() - base,
            &mut again.0,
            groups.as_mut_ptr(),
            groups.len(),
        )
    })?;
    for group in groups.iter_mut().filter(|group| group.start != sys::ZF_NONE) {
        group.start += base;
        group.end += base;
    }
    Ok(Captures { found, groups, info: Arc::clone(info) })
}

/// Where a search takes its chunks from.
pub(crate) enum Source<'t, C> {
    Text(Text<'t>),
    Window(Window<'t, C>),
}

impl<'t, C: Cursor<'t>> Source<'t, C> {
    /// Chunks that are at hand, or else a window. Where a match has to begin at one place, all chunks are gathered.
    pub(crate) fn new(mut input: Input<C>) -> Result<Source<'t, C>, Error> {
        if let Some(text) = Text::at_hand(&input) {
            return Ok(Source::Text(text));
        }
        match input.anchored {
            Anchored::Yes => Ok(Source::Text(Text::whole(&mut input)?)),
            Anchored::No => Ok(Source::Window(Window::new(input)?)),
        }
    }

    /// Where the search begins.
    pub(crate) fn start(&self) -> usize {
        match self {
            Source::Text(text) => text.base + text.start,
            Source::Window(window) => window.span.start,
        }
    }

    /// Where the range ends, or the slice or the text where that comes first.
    pub(crate) fn range_end(&mut self) -> usize {
        match self {
            Source::Text(text) => text.range_end(),
            Source::Window(window) => window.range_end(),
        }
    }

    /// The match from a place on.
    pub(crate) fn find(&mut self, loan: &mut Loan<'_>, anchored: Anchored, from: usize) -> Result<Option<Match>, Error> {
        match self {
            Source::Text(text) => {
                let span = Span { start: from - text.base, end: text.end };
                Ok(found_in(text.chunks(), loan, anchored, span)?.map(|found| found.moved(text.base)))
            }
            Source::Window(window) => window.find(loan, from),
        }
    }

    /// A match that was found there, with its groups.
    pub(crate) fn captures(&mut self, regex: &Regex, loan: &mut Loan<'_>, found: Match) -> Result<Captures, Error> {
        let (chunks, base) = match self {
            Source::Text(text) => (text.chunks(), text.base),
            Source::Window(window) => window.around(found),
        };
        captured(regex, loan, chunks, base, found)
    }
}

/// How many matches of an iteration are found by windows. If more are asked for, pointers to all chunks that are left are gathered.
const BY_WINDOWS: usize = 64;

/// How the next match is found, once all of a batch are given.
enum Next {
    /// By a batch more, or there is none more.
    Batch { is_last: bool },
    /// One at a time: from where on, and how many were found.
    Step { from: usize, found: usize },
}

/// The search of all matches of a text.
pub(crate) struct Search<'r, 't, C> {
    regex: &'r Regex,
    loan: Loan<'r>,
    source: Source<'t, C>,
    anchored: Anchored,
    batch: Vec<Match>,
    /// How many matches of the batch were given.
    given: usize,
    next: Next,
}

impl<'r, 't, C: Cursor<'t>> Search<'r, 't, C> {
    /// From the start of the range on.
    pub(crate) fn new(regex: &'r Regex, source: Source<'t, C>, anchored: Anchored) -> Result<Search<'r, 't, C>, Error> {
        let mut loan = regex.lend()?;
        let next = match &source {
            Source::Text(text) if anchored == Anchored::No => restarted(&mut loan, text, false),
            _ => Next::Step { from: source.start(), found: 0 },
        };
        Ok(Search { regex, loan, source, anchored, batch: Vec::new(), given: 0, next })
    }

    /// The next match of the batch.
    #[inline]
    pub(crate) fn next_given(&mut self) -> Option<Match> {
        let found = self.batch.get(self.given).copied();
        self.given += usize::from(found.is_some());
        found
    }

    /// The next match.
    pub(crate) fn next_match(&mut self) -> Result<Option<Match>, Error> {
        if let Some(found) = self.next_given() {
            return Ok(Some(found));
        }
        self.gather();
        match self.next {
            Next::Batch { is_last: true } => Ok(None),
            Next::Batch { is_last: false } => {
                if let Source::Text(text) = &self.source {
                    self.given = 0;
                    let is_last = fill(&mut self.loan, text, &mut self.batch)?;
                    self.next = Next::Batch { is_last };
                }
                Ok(self.next_given())
            }
            Next::Step { from, found } => {
                let next = self.step(from, found > 0)?;
                if let Some(next) = next {
                    self.next = Next::Step { from: next.end(), found: found + 1 };
                }
                Ok(next)
            }
        }
    }

    /// Gathers what is left of a text, if many matches were found by windows.
    fn gather(&mut self) {
        if let (Next::Step { from, found: BY_WINDOWS }, Source::Window(window)) = (&self.next, &mut self.source) {
            let text = window.rest(*from);
            self.next = restarted(&mut self.loan, &text, true);
            self.source = Source::Text(text);
        }
    }

    /// The match from a place on. If a match ended there, an empty one that ends there too gives way to that from a byte later.
    fn step(&mut self, from: usize, follows: bool) -> Result<Option<Match>, Error> {
        let found = self.source.find(&mut self.loan, self.anchored, from)?;
        if !(follows && found.is_some_and(|found| found.is_empty() && found.end() == from)) {
            return Ok(found);
        }
        let Some(later) = from.checked_add(1) else { return Ok(None) };
        match self.source.find(&mut self.loan, self.anchored, later) {
            // The one before ended with the range.
            Err(Error::Outside) => Ok(None),
            found => found,
        }
    }

    /// A match with its groups.
    pub(crate) fn captures(&mut self, found: Match) -> Result<Captures, Error> {
        self.source.captures(self.regex, &mut self.loan, found)
    }

    /// Where the range ends, or the slice or the text where that comes first.
    pub(crate) fn range_end(&mut self) -> usize {
        self.source.range_end()
    }

    /// Puts bytes of a text, counted from its base, behind those of `out`.
    pub(crate) fn copy(&self, start: usize, end: usize, out: &mut Vec<u8>) {
        if let Source::Text(text) = &self.source {
            text.copy(Span { start, end }, out);
        }
    }
}

/// Begins an iteration of the library at the start of a range.
fn restarted(loan: &mut Loan<'_>, text: &Text<'_>, follows: bool) -> Next {
    // SAFETY: the loan's handle is full and used here alone.
    unsafe { sys::zf_restart(loan.handle(), text.start, follows.into()) };
    Next::Batch { is_last: false }
}

/// Fills a batch with the next matches, and tells whether these are the last. The first batch is small, so that a search of one match or two
/// needs little.
fn fill(loan: &mut Loan<'_>, text: &Text<'_>, batch: &mut Vec<Match>) -> Result<bool, Error> {
    let len = (batch.len() * 4).clamp(16, BATCH);
    batch.clear();
    batch.reserve_exact(len);
    let mut progress = sys::zf_progress::default();
    // SAFETY: the loan's handle is full and used here alone, the chunks are borrowed, and the batch has room. A `Match` is a `zf_match`.
    let status = unsafe {
        sys::zf_next(loan.handle(), text.first(), text.count(), text.end, batch.as_mut_ptr().cast(), len, &mut progress)
    };
    told(status)?;
    // SAFETY: the call wrote so many.
    unsafe { batch.set_len(progress.count) };
    if text.base > 0 {
        batch.iter_mut().for_each(|found| *found = found.moved(text.base));
    }
    Ok(progress.count < len)
}
