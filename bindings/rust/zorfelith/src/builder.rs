//! How patterns are read and searched for, and limits.

use crate::error::{Error, SyntaxError};
use crate::groups::GroupInfo;
use crate::pool::{Handle, Pool};
use crate::regex::{Compiled, Regex};
use crate::{Chunk, chunk};
use std::fmt;
use std::sync::{Arc, Mutex};
use zorfelith_sys as sys;

/// Which match is sought.
#[derive(Clone, Copy, Debug, Default, PartialEq, Eq, Hash)]
pub enum MatchKind {
    /// The preferred match of the least start.
    #[default]
    LeftmostFirst,
    /// The match with the greatest end.
    All,
    /// The longest match of the least start.
    LeftmostLongest,
}

/// By which grammar patterns are read.
#[derive(Clone, Copy, Debug, Default, PartialEq, Eq, Hash)]
pub enum Grammar {
    /// The stated one, in which `\d`, `\s`, `\w` and the flag `i` are of ASCII.
    #[default]
    Stated,
    /// The full one, with Unicode's classes and case folding, set operations and the flag `x`.
    Full,
}

/// Builds a [`Regex`] by settings.
///
/// ```
/// use zorfelith::{Grammar, Regex};
///
/// let regex = Regex::builder().case_insensitive(true).grammar(Grammar::Full).build("straße")?;
/// assert!(regex.is_match("STRAßE")?);
/// # Ok::<(), zorfelith::Error>(())
/// ```
#[derive(Clone, Default)]
pub struct Builder {
    settings: sys::zf_settings,
}

impl Builder {
    /// The default of each setting.
    pub fn new() -> Builder {
        Builder::default()
    }

    /// Letters match in either case: the flag `i`. Off by default.
    pub fn case_insensitive(&mut self, yes: bool) -> &mut Builder {
        self.settings.case_insensitive = yes.into();
        self
    }

    /// `^` and `$` match at each line: the flag `m`. Off by default.
    pub fn multi_line(&mut self, yes: bool) -> &mut Builder {
        self.settings.multi_line = yes.into();
        self
    }

    /// A dot matches line ends too: the flag `s`. Off by default.
    pub fn dot_matches_new_line(&mut self, yes: bool) -> &mut Builder {
        self.settings.dot_matches_new_line = yes.into();
        self
    }

    /// Lines end with CR, LF or both: the flag `R`. Off by default.
    pub fn crlf(&mut self, yes: bool) -> &mut Builder {
        self.settings.crlf = yes.into();
        self
    }

    /// Repetitions are lazy, and greedy with `?`: the flag `U`. Off by default.
    pub fn swap_greed(&mut self, yes: bool) -> &mut Builder {
        self.settings.swap_greed = yes.into();
        self
    }

    /// Classes, dots and words are of characters, not of bytes: the flag `u`. On by default.
    pub fn unicode(&mut self, yes: bool) -> &mut Builder {
        self.settings.bytes = (!yes).into();
        self
    }

    /// Patterns match UTF-8 alone. On by default.
    pub fn utf8(&mut self, yes: bool) -> &mut Builder {
        self.settings.any_bytes = (!yes).into();
        self
    }

    /// If some pattern may be empty, no match ends inside a character. On by default.
    pub fn utf8_empty(&mut self, yes: bool) -> &mut Builder {
        self.settings.split_characters = (!yes).into();
        self
    }

    /// By which grammar patterns are read.
    pub fn grammar(&mut self, grammar: Grammar) -> &mut Builder {
        self.settings.full = (grammar == Grammar::Full).into();
        self
    }

    /// Which match is sought.
    pub fn match_kind(&mut self, kind: MatchKind) -> &mut Builder {
        self.settings.kind = match kind {
            MatchKind::LeftmostFirst => sys::ZF_LEFTMOST_FIRST,
            MatchKind::All => sys::ZF_ALL,
            MatchKind::LeftmostLongest => sys::ZF_LEFTMOST_LONGEST,
        };
        self
    }

    /// The limit on the size of the patterns, which is 32 times their weight by their grammar; 0 stands for 10,485,760.
    pub fn size_limit(&mut self, limit: usize) -> &mut Builder {
        self.settings.size_limit = limit;
        self
    }

    /// How many bytes the cache of a lazy DFA may take, of which a regex has one for each search at a time; 0 stands for 2,097,152.
    pub fn cache_capacity(&mut self, bytes: usize) -> &mut Builder {
        self.settings.cache_capacity = bytes;
        self
    }

    /// Compiles a pattern.
    pub fn build(&self, pattern: &str) -> Result<Regex, Error> {
        self.build_many(&[pattern])
    }

    /// Compiles patterns, of which there may be none. The match of several is the preferred one of them all.
    pub fn build_many<P: AsRef<str>>(&self, patterns: &[P]) -> Result<Regex, Error> {
        let texts: Vec<Chunk<'_>> = patterns.iter().map(|pattern| chunk(pattern.as_ref().as_bytes())).collect();
        let mut handle = Handle::empty();
        let mut refused = sys::zf_refused::default();
        // SAFETY: the handle is empty, and each slice is borrowed for the call; a slice's pointer is never null.
        let status = unsafe {
            sys::zf_compile(&mut handle.0, texts.as_ptr().cast(), texts.len(), &self.settings, size_of_val(&self.settings), &mut refused)
        };
        match status {
            sys::ZF_DONE => {}
            sys::ZF_SYNTAX => {
                let text = patterns[refused.pattern].as_ref();
                let fault = SyntaxError { pattern: refused.pattern, is_of_many: patterns.len() > 1, at: refused.at, ..self.fault(text)? };
                return Err(Error::Syntax(Box::new(fault)));
            }
            sys::ZF_MEMORY => return Err(Error::Memory),
            _ => return Err(Error::TooLarge),
        }
        let groups = Arc::new(GroupInfo::new(&mut handle));
        Ok(Regex { compiled: Arc::new(Compiled { handle: Mutex::new(handle), groups }), pool: Pool::new() })
    }

    /// What is wrong with the text of a pattern that isn't read.
    fn fault(&self, text: &str) -> Result<SyntaxError, Error> {
        let (mut words, mut fault) = (vec![0; 64], sys::zf_fault::default());
        loop {
            // SAFETY: each pointer is of a borrowed value or slice, and is never null.
            let status = unsafe {
                sys::zf_explain(
                    text.as_ptr(),
                    text.len(),
                    &self.settings,
                    size_of_val(&self.settings),
                    &mut fault,
                    words.as_mut_ptr(),
                    words.len(),
                )
            };
            match status {
                sys::ZF_SHORT => words.resize(fault.len, 0),
                sys::ZF_MEMORY => return Err(Error::Memory),
                _ => break,
            }
        }
        words.truncate(fault.len);
        let words = String::from_utf8_lossy(&words).into_owned();
        Ok(SyntaxError { pattern: 0, is_of_many: false, text: text.to_string(), at: 0, range: fault.start..fault.end, words })
    }
}

impl fmt::Debug for Builder {
    fn fmt(&self, f: &mut fmt::Formatter<'_>) -> fmt::Result {
        let settings = &self.settings;
        f.debug_struct("Builder")
            .field("case_insensitive", &(settings.case_insensitive == 1))
            .field("multi_line", &(settings.multi_line == 1))
            .field("dot_matches_new_line", &(settings.dot_matches_new_line == 1))
            .field("crlf", &(settings.crlf == 1))
            .field("swap_greed", &(settings.swap_greed == 1))
            .field("unicode", &(settings.bytes == 0))
            .field("utf8", &(settings.any_bytes == 0))
            .field("utf8_empty", &(settings.split_characters == 0))
            .field("full_grammar", &(settings.full == 1))
            .field("match_kind", &settings.kind)
            .field("size_limit", &settings.size_limit)
            .field("cache_capacity", &settings.cache_capacity)
            .finish()
    }
}

/// The pattern that matches a text and nothing else.
pub fn escape(text: &str) -> String {
    let (mut pattern, mut len) = (Vec::new(), 0);
    loop {
        // SAFETY: each slice is borrowed for the call, and its pointer is never null.
        let status = unsafe { sys::zf_escape(text.as_ptr(), text.len(), pattern.as_mut_ptr(), pattern.len(), &mut len) };
        if status != sys::ZF_SHORT {
            return String::from_utf8_lossy(&pattern).into_owned();
        }
        pattern.resize(len, 0);
    }
}

/// The version of the library: 1,000,000 times its first number, 1,000 times its second, and its third.
pub fn version() -> u32 {
    // SAFETY: the call takes nothing.
    unsafe { sys::zf_version() }
}
