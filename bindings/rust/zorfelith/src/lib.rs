//! Regex search over text in chunks, by a library that is proved.
//!
//! A text is a string, an array of chunks, or a [`Cursor`] over chunks that lie anywhere, and is neither copied nor joined. The answers are
//! those of the whole text, wherever it is cut. All places are in bytes of the whole text.
//!
//! ```
//! use zorfelith::{Input, Regex};
//!
//! let dates = Regex::new(r"(?P<year>[0-9]{4})-(?P<month>[0-9]{2})")?;
//! let text = ["due 20", "26-11, paid 2027", "-01"];
//! assert!(dates.is_match(&text)?);
//! assert_eq!(dates.find(&text)?.unwrap().range(), 4..11);
//! assert_eq!(dates.find(Input::new(&text).range(5..))?.unwrap().range(), 18..25);
//! for captures in dates.captures_iter(&text) {
//!     let captures = captures?;
//!     assert_eq!(captures.get_group_by_name("month").unwrap().len(), 2);
//! }
//! # Ok::<(), zorfelith::Error>(())
//! ```
//!
//! # More searches
//!
//! ```
//! use zorfelith::{Partial, Regex, chunk};
//!
//! let dates = Regex::new(r"(?P<year>[0-9]{4})-([0-9]{2})")?;
//! let text = [chunk(b"due 20"), chunk(b"26-11, paid 2027"), chunk(b"-01")];
//! assert_eq!(dates.replace_all(&text, |_| "soon")?, b"due soon, paid soon");
//! assert_eq!(dates.replace(&text, |_| "soon")?, b"due soon, paid 2027-01");
//! assert_eq!(dates.replace_by(&text, "${2}/${year}")?, (b"due 11/2026, paid 01/2027".to_vec(), 2));
//! assert_eq!(dates.replacement_by(&text, "${2}")?, Some((dates.find(&text)?.unwrap(), b"11".to_vec())));
//! assert_eq!(dates.split(&text).collect::<Result<Vec<_>, _>>()?, [0..4, 11..18, 25..25]);
//! assert_eq!(dates.splitn(&text, 2).collect::<Result<Vec<_>, _>>()?, [0..4, 11..25]);
//! assert_eq!(dates.find_last(&text, 18)?.unwrap().range(), 4..11);
//! assert_eq!(dates.find_partial(&text[..2])?, Partial::Final(dates.find(&text)?.unwrap()));
//! assert_eq!(zorfelith::escape("1+1"), r"1\+1");
//! # Ok::<(), zorfelith::Error>(())
//! ```
//!
//! # Threads
//!
//! A [`Regex`] is `Send`, `Sync` and `Clone`, and all searches take `&self`.
//!
//! ```
//! use zorfelith::Regex;
//!
//! let regex = Regex::new("[0-9]+")?;
//! let counts = std::thread::scope(|scope| {
//!     let regex = &regex;
//!     let threads = ["1 2", "3"].map(|text| scope.spawn(move || regex.find_iter(text).count()));
//!     threads.map(|thread| thread.join().unwrap())
//! });
//! assert_eq!(counts, [2, 1]);
//! # Ok::<(), zorfelith::Error>(())
//! ```
//!
//! # Errors
//!
//! What is wrong with a pattern is displayed with the part at fault:
//!
//! ```
//! let error = zorfelith::Regex::new("to(tal").unwrap_err();
//! assert_eq!(error.to_string(), "unclosed group:\n    to(tal\n      ^");
//! ```
//!
//! A search fails if its range is outside of the text, if the text has `usize::MAX` bytes or more, or if memory is refused for a cache; once a
//! thread has searched by a regex that isn't on loan elsewhere, it has one.

#[cfg(doctest)]
#[doc = include_str!("../README.md")]
struct Readme;

mod builder;
mod cursor;
mod error;
mod groups;
mod input;
mod iter;
mod live;
mod order;
mod pool;
mod prepared;
mod regex;
mod search;
mod steps;
mod stream;
mod text;
mod window;

pub use builder::{Builder, Grammar, MatchKind, escape, version};
pub use cursor::{Chunk, Chunks, Cursor, IntoCursor, Slices, chunk};
pub use error::{Error, SyntaxError};
pub use groups::{Captures, GroupInfo, Match};
pub use input::{Anchored, Input, Span};
pub use iter::{CapturesMatches, FindMatches, Split, SplitN};
pub use live::{Change, LiveMatches};
pub use prepared::Prepared;
pub use regex::{Partial, Regex};
pub use steps::{Progress, Stepper};
pub use stream::StreamSearcher;
