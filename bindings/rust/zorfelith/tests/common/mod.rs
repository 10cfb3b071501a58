//! Cursors that cut a text in several ways.

#![allow(dead_code)]

use zorfelith::{Chunk, Cursor, chunk};

/// The lengths of chunks, one after another and over again.
const LENGTHS: [usize; 6] = [1, 2, 3, 1, 4, 2];

/// A cursor that cuts its text anew at each move, and tells no total.
#[derive(Clone)]
pub struct Recut<'t> {
    text: &'t [u8],
    start: usize,
    end: usize,
    moves: usize,
}

impl<'t> Recut<'t> {
    /// At a chunk that begins at this place, or nearest to it.
    pub fn at(text: &'t [u8], place: usize) -> Recut<'t> {
        let start = place.min(text.len());
        Recut { text, start, end: (start + 2).min(text.len()), moves: 0 }
    }

    fn next_len(&mut self) -> usize {
        self.moves += 1;
        LENGTHS[self.moves % LENGTHS.len()]
    }
}

impl<'t> Cursor<'t> for Recut<'t> {
    fn chunk(&self) -> &'t [u8] {
        &self.text[self.start..self.end]
    }

    fn advance(&mut self) -> bool {
        let moves = self.end < self.text.len();
        if moves {
            self.start = self.end;
            self.end = (self.start + self.next_len()).min(self.text.len());
        }
        moves
    }

    fn backtrack(&mut self) -> bool {
        let moves = self.start > 0;
        if moves {
            self.end = self.start;
            self.start = self.end.saturating_sub(self.next_len());
        }
        moves
    }

    fn offset(&self) -> usize {
        self.start
    }
}

/// The text in pieces of a length, with an empty one before each and behind the last.
pub fn with_empty_ones(text: &[u8], len: usize) -> Vec<&[u8]> {
    let mut slices: Vec<&[u8]> = text.chunks(len).flat_map(|piece| [&piece[..0], piece]).collect();
    slices.push(&[]);
    slices
}

/// The text in chunks of a length.
pub fn in_chunks(text: &[u8], len: usize) -> Vec<Chunk<'_>> {
    text.chunks(len).map(chunk).collect()
}

/// Numbers that look random, from a seed: a linear congruential generator.
pub struct Random(pub u64);

impl Random {
    pub fn below(&mut self, limit: usize) -> usize {
        self.0 = self.0.wrapping_mul(6_364_136_223_846_793_005).wrapping_add(1_442_695_040_888_963_407);
        ((self.0 >> 33) as usize) % limit
    }
}
