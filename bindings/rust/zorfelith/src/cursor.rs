//! Texts in chunks, and cursors over them.

use std::fmt;
use std::marker::PhantomData;
use zorfelith_sys as sys;

/// A chunk of a text: bytes that it borrows. It is made by [`chunk`] alone, so what it points at is there.
#[repr(transparent)]
#[derive(Clone, Copy)]
pub struct Chunk<'t>(sys::zf_bytes<'t>);

// SAFETY: it is no more than a `&[u8]`.
unsafe impl Send for Chunk<'_> {}
// SAFETY: the same.
unsafe impl Sync for Chunk<'_> {}

/// The chunk of these bytes.
#[inline]
pub const fn chunk(bytes: &[u8]) -> Chunk<'_> {
    Chunk(sys::zf_bytes { bytes: bytes.as_ptr(), len: bytes.len(), lent: PhantomData })
}

impl<'t> Chunk<'t> {
    /// Its bytes.
    #[inline]
    pub fn bytes(&self) -> &'t [u8] {
        // SAFETY: `chunk` took the pointer and the length from a slice that is borrowed as long.
        unsafe { std::slice::from_raw_parts(self.0.bytes, self.0.len) }
    }

    /// How many bytes it has.
    #[inline]
    pub fn len(&self) -> usize {
        self.0.len
    }

    /// Whether it has no bytes.
    #[inline]
    pub fn is_empty(&self) -> bool {
        self.0.len == 0
    }
}

impl fmt::Debug for Chunk<'_> {
    fn fmt(&self, f: &mut fmt::Formatter<'_>) -> fmt::Result {
        write!(f, "b\"{}\"", self.bytes().escape_ascii())
    }
}

/// A cursor over a text in chunks. It stands at one of them, and goes to the next or to the one before.
///
/// The chunks follow one another without gaps and cover the text. They may be cut anywhere, also inside a character, and may be empty. Whatever
/// an implementation does, a search is memory-safe and ends if the moves end; the answers are those of the text that the cursor shows.
///
/// A chunk is lent as long as the text, `'t`, and not as long as the cursor: a search holds several of them at once.
///
/// ```
/// use zorfelith::{Cursor, Input, Regex};
///
/// /// The two sides of a gap buffer.
/// struct Sides<'t> {
///     sides: [&'t [u8]; 2],
///     at: usize,
/// }
///
/// impl<'t> Cursor<'t> for Sides<'t> {
///     fn chunk(&self) -> &'t [u8] {
///         self.sides[self.at]
///     }
///
///     fn advance(&mut self) -> bool {
///         let moves = self.at == 0;
///         self.at = 1;
///         moves
///     }
///
///     fn backtrack(&mut self) -> bool {
///         let moves = self.at == 1;
///         self.at = 0;
///         moves
///     }
///
///     fn offset(&self) -> usize {
///         if self.at == 0 { 0 } else { self.sides[0].len() }
///     }
/// }
///
/// let buffer = Sides { sides: [b"see 20", b"26"], at: 0 };
/// let found = Regex::new("[0-9]+")?.find(Input::new(buffer))?;
/// assert_eq!(found.map(|found| found.range()), Some(4..8));
/// # Ok::<(), zorfelith::Error>(())
/// ```
pub trait Cursor<'t> {
    /// The bytes of the chunk at which it stands.
    fn chunk(&self) -> &'t [u8];

    /// Goes to the next chunk. At the last one it stays, and returns false.
    fn advance(&mut self) -> bool;

    /// Goes to the chunk before. At the first one it stays, and returns false.
    fn backtrack(&mut self) -> bool;

    /// Where the chunk begins in the text, in bytes.
    fn offset(&self) -> usize;

    /// How many bytes the text has, if that is known without going through it.
    fn total_bytes(&self) -> Option<usize> {
        None
    }

    /// All chunks of the text, if they lie in an array. A search takes these then, and moves no cursor.
    fn chunks(&self) -> Option<&'t [Chunk<'t>]> {
        None
    }
}

impl<'t, C: Cursor<'t>> Cursor<'t> for &mut C {
    fn chunk(&self) -> &'t [u8] {
        C::chunk(self)
    }

    fn advance(&mut self) -> bool {
        C::advance(self)
    }

    fn backtrack(&mut self) -> bool {
        C::backtrack(self)
    }

    fn offset(&self) -> usize {
        C::offset(self)
    }

    fn total_bytes(&self) -> Option<usize> {
        C::total_bytes(self)
    }

    fn chunks(&self) -> Option<&'t [Chunk<'t>]> {
        C::chunks(self)
    }
}

/// A text in one chunk.
impl<'t> Cursor<'t> for &'t [u8] {
    #[inline]
    fn chunk(&self) -> &'t [u8] {
        self
    }

    fn advance(&mut self) -> bool {
        false
    }

    fn backtrack(&mut self) -> bool {
        false
    }

    #[inline]
    fn offset(&self) -> usize {
        0
    }

    #[inline]
    fn total_bytes(&self) -> Option<usize> {
        Some(self.len())
    }
}

/// A text in one chunk.
impl<'t> Cursor<'t> for &'t str {
    #[inline]
    fn chunk(&self) -> &'t [u8] {
        self.as_bytes()
    }

    fn advance(&mut self) -> bool {
        false
    }

    fn backtrack(&mut self) -> bool {
        false
    }

    #[inline]
    fn offset(&self) -> usize {
        0
    }

    #[inline]
    fn total_bytes(&self) -> Option<usize> {
        Some(self.len())
    }
}

/// A cursor over an array of chunks, which is handed to the library as it lies.
#[derive(Clone, Copy, Debug)]
pub struct Chunks<'t> {
    chunks: &'t [Chunk<'t>],
    at: usize,
    offset: usize,
}

impl<'t> Chunks<'t> {
    /// At the first chunk.
    #[inline]
    pub fn new(chunks: &'t [Chunk<'t>]) -> Chunks<'t> {
        Chunks { chunks, at: 0, offset: 0 }
    }
}

impl<'t> Cursor<'t> for Chunks<'t> {
    fn chunk(&self) -> &'t [u8] {
        self.chunks.get(self.at).map_or(&[], Chunk::bytes)
    }

    fn advance(&mut self) -> bool {
        let moves = self.at + 1 < self.chunks.len();
        if moves {
            self.offset = self.offset.saturating_add(self.chunks[self.at].len());
            self.at += 1;
        }
        moves
    }

    fn backtrack(&mut self) -> bool {
        let moves = self.at > 0;
        if moves {
            self.at -= 1;
            self.offset = self.offset.saturating_sub(self.chunks[self.at].len());
        }
        moves
    }

    #[inline]
    fn offset(&self) -> usize {
        self.offset
    }

    #[inline]
    fn chunks(&self) -> Option<&'t [Chunk<'t>]> {
        Some(self.chunks)
    }
}

/// A cursor over an array of values that hold bytes, such as `&[u8]`, `Vec<u8>` or `String`.
#[derive(Debug)]
pub struct Slices<'t, T> {
    slices: &'t [T],
    at: usize,
    offset: usize,
}

impl<'t, T: AsRef<[u8]>> Slices<'t, T> {
    /// At the first value.
    #[inline]
    pub fn new(slices: &'t [T]) -> Slices<'t, T> {
        Slices { slices, at: 0, offset: 0 }
    }
}

impl<T> Clone for Slices<'_, T> {
    fn clone(&self) -> Self {
        *self
    }
}

impl<T> Copy for Slices<'_, T> {}

impl<'t, T: AsRef<[u8]>> Cursor<'t> for Slices<'t, T> {
    #[inline]
    fn chunk(&self) -> &'t [u8] {
        self.slices.get(self.at).map_or(&[], AsRef::as_ref)
    }

    #[inline]
    fn advance(&mut self) -> bool {
        let moves = self.at + 1 < self.slices.len();
        if moves {
            self.offset = self.offset.saturating_add(self.chunk().len());
            self.at += 1;
        }
        moves
    }

    #[inline]
    fn backtrack(&mut self) -> bool {
        let moves = self.at > 0;
        if moves {
            self.at -= 1;
            self.offset = self.offset.saturating_sub(self.chunk().len());
        }
        moves
    }

    #[inline]
    fn offset(&self) -> usize {
        self.offset
    }
}

/// What can be made a cursor: cursors themselves, and slices, arrays and vectors of what holds bytes. Others are wrapped by [`Slices::new`].
pub trait IntoCursor {
    /// The cursor.
    type Cursor;

    /// The cursor at its first chunk.
    fn into_cursor(self) -> Self::Cursor;
}

impl<'t, C: Cursor<'t>> IntoCursor for C {
    type Cursor = C;

    #[inline]
    fn into_cursor(self) -> C {
        self
    }
}

/// An owned text in one chunk, or an array of chunks, borrowed.
macro_rules! borrowed {
    ($([$($parameter:tt)*] $borrowed:ty, $cursor:ty, $make:expr;)*) => {
        $(impl<'t, $($parameter)*> IntoCursor for &'t $borrowed {
            type Cursor = $cursor;

            #[inline]
            fn into_cursor(self) -> $cursor {
                $make(self)
            }
        })*
    };
}

borrowed! {
    [] Vec<u8>, &'t [u8], Vec::as_slice;
    [] String, &'t str, String::as_str;
    [const N: usize] [u8; N], &'t [u8], <[u8; N]>::as_slice;
    [] [Chunk<'t>], Chunks<'t>, Chunks::new;
    [] Vec<Chunk<'t>>, Chunks<'t>, Chunks::new;
    [const N: usize] [Chunk<'t>; N], Chunks<'t>, Chunks::new;
    ['a] [&'a [u8]], Slices<'t, &'a [u8]>, Slices::new;
    ['a] Vec<&'a [u8]>, Slices<'t, &'a [u8]>, Slices::new;
    ['a, const N: usize] [&'a [u8]; N], Slices<'t, &'a [u8]>, Slices::new;
    ['a] [&'a str], Slices<'t, &'a str>, Slices::new;
    ['a] Vec<&'a str>, Slices<'t, &'a str>, Slices::new;
    ['a, const N: usize] [&'a str; N], Slices<'t, &'a str>, Slices::new;
    [] [Vec<u8>], Slices<'t, Vec<u8>>, Slices::new;
    [] Vec<Vec<u8>>, Slices<'t, Vec<u8>>, Slices::new;
    [const N: usize] [Vec<u8>; N], Slices<'t, Vec<u8>>, Slices::new;
    [] [String], Slices<'t, String>, Slices::new;
    [] Vec<String>, Slices<'t, String>, Slices::new;
    [const N: usize] [String; N], Slices<'t, String>, Slices::new;
}
