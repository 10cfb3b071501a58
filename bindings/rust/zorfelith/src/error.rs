//! Why there is no answer.

use std::error;
use std::fmt;
use std::ops::Range;
use zorfelith_sys as sys;

/// Why there is no answer.
#[derive(Clone, Debug, PartialEq, Eq)]
#[non_exhaustive]
pub enum Error {
    /// The chunks hold `usize::MAX` bytes, or more.
    TooLong,
    /// The range begins behind its end, or behind the text's.
    Outside,
    /// A text isn't read as a pattern.
    Syntax(Box<SyntaxError>),
    /// The patterns are too large, or too many.
    TooLarge,
    /// Memory was refused.
    Memory,
    /// Matches of this kind have no groups, to replace by.
    NoGroups,
    /// At this byte a `$` of the template begins nothing.
    Template {
        /// The place of the `$`.
        at: usize,
    },
    /// The list is gone, since memory was refused to an edit.
    NoList,
    /// The text doesn't have the length that the edit gives.
    Misfit,
    /// The stream was finished.
    Finished,
    /// The stream would keep more bytes than its limit.
    Limit,
    /// The call doesn't support an input with a slice or a range, or where a match has to begin at one place.
    Unsupported,
}

impl fmt::Display for Error {
    fn fmt(&self, f: &mut fmt::Formatter<'_>) -> fmt::Result {
        match self {
            Error::TooLong => write!(f, "the text is too long"),
            Error::Outside => write!(f, "the range is outside of the text"),
            Error::Syntax(fault) => write!(f, "{fault}"),
            Error::TooLarge => write!(f, "the patterns are too large"),
            Error::Memory => write!(f, "out of memory"),
            Error::NoGroups => write!(f, "matches of this kind have no groups"),
            Error::Template { at } => write!(f, "error parsing template at byte {at}"),
            Error::NoList => write!(f, "the list is gone"),
            Error::Misfit => write!(f, "the text doesn't have the length that the edit gives"),
            Error::Finished => write!(f, "the stream was finished"),
            Error::Limit => write!(f, "the stream would keep more bytes than its limit"),
            Error::Unsupported => write!(f, "the call doesn't support such an input"),
        }
    }
}

impl error::Error for Error {}

/// What is wrong with the text of a pattern. It is displayed with the line of the text, and carets below the part at fault:
///
/// ```text
/// unclosed group:
///     to(tal
///       ^
/// ```
///
/// `Debug` shows the same, so that `unwrap` does.
#[derive(Clone, PartialEq, Eq)]
pub struct SyntaxError {
    pub(crate) pattern: usize,
    pub(crate) is_of_many: bool,
    pub(crate) text: String,
    pub(crate) at: usize,
    pub(crate) range: Range<usize>,
    pub(crate) words: String,
}

impl SyntaxError {
    /// The number of the pattern.
    pub fn pattern(&self) -> usize {
        self.pattern
    }

    /// The text of the pattern.
    pub fn text(&self) -> &str {
        &self.text
    }

    /// The byte at which the fault was met.
    pub fn at(&self) -> usize {
        self.at
    }

    /// The part of the text that is at fault.
    pub fn range(&self) -> Range<usize> {
        self.range.clone()
    }

    /// A line that says what is wrong.
    pub fn words(&self) -> &str {
        &self.words
    }
}

/// The line of a text that has this byte: its number, where it begins, and the line.
fn line_with(text: &str, at: usize) -> (usize, usize, &str) {
    let mut start = 0;
    for (number, line) in text.split('\n').enumerate() {
        if at <= start + line.len() {
            return (number + 1, start, line);
        }
        start += line.len() + 1;
    }
    (1, text.len(), "")
}

/// What stands below a line: a caret for each character of the range, and at least one.
fn carets(line: &str, range: Range<usize>) -> String {
    let mut below = String::new();
    for (at, c) in line.char_indices().take_while(|&(at, _)| at < range.end.max(range.start)) {
        below.push(if at >= range.start { '^' } else if c == '\t' { '\t' } else { ' ' });
    }
    if !below.ends_with('^') {
        below.push('^');
    }
    below
}

impl fmt::Display for SyntaxError {
    fn fmt(&self, f: &mut fmt::Formatter<'_>) -> fmt::Result {
        let (number, start, line) = line_with(&self.text, self.range.start);
        if self.is_of_many {
            write!(f, "pattern {}: ", self.pattern)?;
        }
        f.write_str(&self.words)?;
        if self.text.contains('\n') {
            write!(f, " in line {number}")?;
        }
        let below = carets(line, self.range.start - start..self.range.end.saturating_sub(start));
        write!(f, ":\n    {line}\n    {below}")
    }
}

impl fmt::Debug for SyntaxError {
    fn fmt(&self, f: &mut fmt::Formatter<'_>) -> fmt::Result {
        write!(f, "\n{self}\n")
    }
}

impl error::Error for SyntaxError {}

/// Whether a search's status tells a match, or what error it tells.
#[inline]
pub(crate) fn told(status: u32) -> Result<bool, Error> {
    match status {
        sys::ZF_DONE => Ok(false),
        sys::ZF_FOUND => Ok(true),
        _ => Err(refused(status)),
    }
}

/// The error of a status that tells no answer.
#[cold]
pub(crate) fn refused(status: u32) -> Error {
    match status {
        sys::ZF_TOO_LONG => Error::TooLong,
        sys::ZF_OUTSIDE => Error::Outside,
        sys::ZF_TOO_LARGE => Error::TooLarge,
        sys::ZF_MEMORY => Error::Memory,
        sys::ZF_NO_KIND => Error::NoGroups,
        sys::ZF_NO_LIST => Error::NoList,
        sys::ZF_MISFIT => Error::Misfit,
        sys::ZF_FINISHED => Error::Finished,
        sys::ZF_LIMIT => Error::Limit,
        _ => unreachable!("no call is made that has the status {status}"),
    }
}
