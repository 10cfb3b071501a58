//! Groups: their names, and where they matched.

use crate::input::Span;
use crate::pool::Handle;
use std::fmt;
use std::ops::Range;
use std::sync::Arc;
use zorfelith_sys as sys;

/// The groups of each pattern, and their names.
#[derive(Clone, Debug)]
pub struct GroupInfo {
    /// Of each pattern the names of its groups, the whole match first.
    patterns: Vec<Vec<Option<Box<str>>>>,
}

impl GroupInfo {
    /// What a full handle tells of its patterns.
    pub(crate) fn new(handle: &mut Handle) -> GroupInfo {
        let mut count = 0;
        // SAFETY: the handle is borrowed alone.
        unsafe { sys::zf_pattern_count(&mut handle.0, &mut count) };
        GroupInfo { patterns: (0..count).map(|pattern| names_of(handle, pattern)).collect() }
    }

    /// How many patterns there are.
    pub fn pattern_len(&self) -> usize {
        self.patterns.len()
    }

    /// How many groups a pattern has, the whole match among them; 0 if there is no such pattern.
    pub fn group_len(&self, pattern: usize) -> usize {
        self.patterns.get(pattern).map_or(0, Vec::len)
    }

    /// The name of a group.
    pub fn to_name(&self, pattern: usize, group: usize) -> Option<&str> {
        self.patterns.get(pattern)?.get(group)?.as_deref()
    }

    /// The number of the group of a name: the first one if several have it.
    pub fn to_index(&self, pattern: usize, name: &str) -> Option<usize> {
        self.patterns.get(pattern)?.iter().position(|group| group.as_deref() == Some(name))
    }

    /// The names of a pattern's groups, the whole match first, which has none.
    pub fn pattern_names(&self, pattern: usize) -> impl Iterator<Item = Option<&str>> + '_ {
        self.patterns.get(pattern).into_iter().flatten().map(Option::as_deref)
    }
}

/// The names of a pattern's groups.
fn names_of(handle: &mut Handle, pattern: usize) -> Vec<Option<Box<str>>> {
    let mut count = 0;
    // SAFETY: the handle is borrowed alone.
    unsafe { sys::zf_group_count(&mut handle.0, pattern, &mut count) };
    (0..count).map(|group| if group == 0 { None } else { name_of(handle, pattern, group) }).collect()
}

/// The name of a group.
fn name_of(handle: &mut Handle, pattern: usize, group: usize) -> Option<Box<str>> {
    let (mut name, mut len) = (Vec::new(), 0);
    loop {
        // SAFETY: the handle is borrowed alone, and the slice for the call; its pointer is never null.
        let status = unsafe { sys::zf_group_name(&mut handle.0, pattern, group, name.as_mut_ptr(), name.len(), &mut len) };
        match status {
            sys::ZF_SHORT => name.resize(len, 0),
            sys::ZF_DONE => return String::from_utf8(name).ok().map(String::into_boxed_str),
            _ => return None,
        }
    }
}

/// A match: the number of its pattern, and where it stands.
#[repr(transparent)]
#[derive(Clone, Copy, Debug, Default, PartialEq, Eq)]
pub struct Match(pub(crate) sys::zf_match);

impl Match {
    /// The number of the pattern that matched.
    #[inline]
    pub fn pattern(&self) -> usize {
        self.0.pattern
    }

    /// Where it starts.
    #[inline]
    pub fn start(&self) -> usize {
        self.0.start
    }

    /// Where it ends, without the byte there.
    #[inline]
    pub fn end(&self) -> usize {
        self.0.end
    }

    /// From its start to its end.
    #[inline]
    pub fn range(&self) -> Range<usize> {
        self.0.start..self.0.end
    }

    /// The same as a span.
    #[inline]
    pub fn span(&self) -> Span {
        self.range().into()
    }

    /// How many bytes it has.
    #[inline]
    pub fn len(&self) -> usize {
        self.0.end - self.0.start
    }

    /// Whether it has no bytes.
    #[inline]
    pub fn is_empty(&self) -> bool {
        self.0.start == self.0.end
    }

    /// The same so many bytes later.
    #[inline]
    pub(crate) fn moved(mut self, by: usize) -> Match {
        self.0.start += by;
        self.0.end += by;
        self
    }
}

/// A match and its groups.
#[derive(Clone)]
pub struct Captures {
    pub(crate) found: Match,
    pub(crate) groups: Vec<sys::zf_group>,
    pub(crate) info: Arc<GroupInfo>,
}

impl Captures {
    /// The match.
    pub fn get_match(&self) -> Match {
        self.found
    }

    /// The number of the pattern that matched.
    pub fn pattern(&self) -> usize {
        self.found.pattern()
    }

    /// Where a group matched; `None` if it took no part, or if there is no such group. Group 0 is the whole match.
    pub fn get_group(&self, group: usize) -> Option<Span> {
        let group = self.groups.get(group)?;
        (group.start != sys::ZF_NONE).then_some(Span { start: group.start, end: group.end })
    }

    /// The same of a group by its name.
    pub fn get_group_by_name(&self, name: &str) -> Option<Span> {
        self.get_group(self.info.to_index(self.pattern(), name)?)
    }

    /// Where its groups matched, the whole match first.
    pub fn iter(&self) -> impl Iterator<Item = Option<Span>> + '_ {
        (0..self.group_len()).map(|group| self.get_group(group))
    }

    /// How many groups the pattern has, the whole match among them.
    pub fn group_len(&self) -> usize {
        self.groups.len()
    }

    /// The groups of all patterns, and their names.
    pub fn group_info(&self) -> &GroupInfo {
        &self.info
    }
}

impl fmt::Debug for Captures {
    fn fmt(&self, f: &mut fmt::Formatter<'_>) -> fmt::Result {
        let groups: Vec<_> = self.iter().map(|group| group.map(|span| span.range())).collect();
        f.debug_struct("Captures").field("pattern", &self.pattern()).field("groups", &groups).finish()
    }
}
