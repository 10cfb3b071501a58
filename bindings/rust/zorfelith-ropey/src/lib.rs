//! A cursor over a rope of the crate `ropey`, for searches by `zorfelith`. Nothing of the rope is copied or joined.
//!
//! ```
//! use ropey::Rope;
//! use zorfelith::{Input, Regex};
//! use zorfelith_ropey::RopeyCursor;
//!
//! let rope = Rope::from_str(&"see 2026, ".repeat(1000));
//! let digits = Regex::new("[0-9]+")?;
//! let found = digits.find(RopeyCursor::new(rope.slice(..)))?;
//! assert_eq!(found.unwrap().range(), 4..8);
//! // The search begins near byte 5000, and no chunk before it is gone over.
//! let cursor = RopeyCursor::at(rope.slice(..), 5000);
//! let found = digits.find(Input::new(cursor).range(5000..))?;
//! assert_eq!(found.unwrap().range(), 5004..5008);
//! # Ok::<(), zorfelith::Error>(())
//! ```

use ropey::RopeSlice;
use ropey::iter::Chunks;
use zorfelith::Cursor;

/// On which side of the chunk at which a cursor stands its iterator is.
#[derive(Clone, Copy, PartialEq, Eq)]
enum Side {
    Before,
    Behind,
}

/// A cursor over a slice of a rope.
#[derive(Clone)]
pub struct RopeyCursor<'t> {
    chunks: Chunks<'t>,
    side: Side,
    chunk: &'t str,
    offset: usize,
    total: usize,
}

impl<'t> RopeyCursor<'t> {
    /// At the first chunk.
    pub fn new(slice: RopeSlice<'t>) -> RopeyCursor<'t> {
        RopeyCursor::at(slice, 0)
    }

    /// At the chunk that has the byte at this place of the slice, or at the last one if that is the slice's end. It panics if the place is
    /// behind the end, as `RopeSlice::chunks_at_byte` does. An input over it searches from where that chunk begins, if no range is set.
    pub fn at(slice: RopeSlice<'t>, place: usize) -> RopeyCursor<'t> {
        let (mut chunks, offset, ..) = slice.chunks_at_byte(place);
        let total = slice.len_bytes();
        if let Some(chunk) = chunks.next() {
            return RopeyCursor { chunks, side: Side::Behind, chunk, offset, total };
        }
        let chunk = chunks.prev().unwrap_or("");
        RopeyCursor { chunks, side: Side::Before, chunk, offset: total - chunk.len(), total }
    }

    /// The next chunk, or the one before, of the iterator, which first goes over the chunk at which the cursor stands.
    fn pull(&mut self, side: Side) -> Option<&'t str> {
        let mut step = || if side == Side::Behind { self.chunks.next() } else { self.chunks.prev() };
        if self.side != side {
            step();
        }
        let pulled = step();
        // At an end the iterator stays beyond the chunk at which the cursor stands.
        self.side = side;
        pulled
    }
}

impl<'t> Cursor<'t> for RopeyCursor<'t> {
    fn chunk(&self) -> &'t [u8] {
        self.chunk.as_bytes()
    }

    fn advance(&mut self) -> bool {
        let Some(chunk) = self.pull(Side::Behind) else { return false };
        self.offset += self.chunk.len();
        self.chunk = chunk;
        true
    }

    fn backtrack(&mut self) -> bool {
        let Some(chunk) = self.pull(Side::Before) else { return false };
        self.offset -= chunk.len();
        self.chunk = chunk;
        true
    }

    fn offset(&self) -> usize {
        self.offset
    }

    fn total_bytes(&self) -> Option<usize> {
        Some(self.total)
    }
}
