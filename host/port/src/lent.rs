//! What is lent to a call: a slice between two guards, all filled with a pattern, so that it shows
//! afterwards what was written. Where pages are used it ends at their end, and has no guard there.

use crate::pages::{self, Pages};
use std::ops::{Deref, DerefMut};
use std::slice;

/// Cells before and after the lent ones, which no call may touch.
const GUARD: usize = 32;
/// The pattern begins somewhere else at each call, so that what an earlier one left does not look kept.
const SHIFTS: usize = 997;

pub struct Lent<T> {
    cells: Cells<T>,
    pattern: Vec<T>,
    shift: usize,
    lent: usize,
}

impl<T: Copy + PartialEq> Lent<T> {
    /// Room for at most so many cells.
    pub fn new(most: usize, cell: fn(usize) -> T) -> Lent<T> {
        let pattern: Vec<T> = (0..most + 2 * GUARD + SHIFTS).map(cell).collect();
        let cells = if pages::used() {
            Cells::Paged(Pages::new((most + GUARD) * size_of::<T>()))
        } else {
            Cells::Plain(pattern[..most + 2 * GUARD].to_vec())
        };
        let mut lent = Lent { cells, pattern, shift: 0, lent: most };
        lent.fill();
        lent
    }

    /// So many cells, filled with the pattern.
    pub fn filled(&mut self, count: usize) -> &mut [T] {
        self.shift = (self.shift + 1) % SHIFTS;
        self.lent = count;
        self.fill();
        self.as_left()
    }

    fn fill(&mut self) {
        let (from, to) = (self.start() - GUARD, self.end());
        self.cells[from..to].copy_from_slice(&self.pattern[self.shift..self.shift + to - from]);
    }

    /// The first lent cell.
    fn start(&self) -> usize {
        match &self.cells {
            Cells::Plain(_) => GUARD,
            Cells::Paged(_) => self.cells.len() - self.lent,
        }
    }

    /// Past the last guard.
    fn end(&self) -> usize {
        match &self.cells {
            Cells::Plain(_) => GUARD + self.lent + GUARD,
            Cells::Paged(_) => self.cells.len(),
        }
    }

    /// As many cells as before, as the last call left them.
    pub fn as_left(&mut self) -> &mut [T] {
        let (start, count) = (self.start(), self.lent);
        &mut self.cells[start..start + count]
    }

    /// The same, or all but the first of them.
    pub fn as_left_or_short(&mut self, short: bool) -> &mut [T] {
        &mut self.as_left()[usize::from(short)..]
    }

    pub fn cells(&self) -> &[T] {
        &self.cells[self.start()..self.start() + self.lent]
    }

    /// Whether both guards are as they were, and every lent cell from this one on.
    pub fn kept_from(&self, cell: usize) -> bool {
        let (start, first) = (self.start(), self.start() - GUARD);
        let kept = |from: usize, to: usize| {
            self.cells[from..to] == self.pattern[self.shift + from - first..self.shift + to - first]
        };
        kept(first, start) && kept(start + cell, self.end())
    }

    /// Whether both guards are as they were.
    pub fn guarded(&self) -> bool {
        self.kept_from(self.lent)
    }
}

enum Cells<T> {
    Plain(Vec<T>),
    Paged(Pages),
}

// Any bytes are a word or a byte, and nobody else holds the pages.
impl<T> Deref for Cells<T> {
    type Target = [T];

    fn deref(&self) -> &[T] {
        match self {
            Cells::Plain(cells) => cells,
            Cells::Paged(pages) => unsafe {
                slice::from_raw_parts(pages.written().cast(), pages.len() / size_of::<T>())
            },
        }
    }
}

impl<T> DerefMut for Cells<T> {
    fn deref_mut(&mut self) -> &mut [T] {
        match self {
            Cells::Plain(cells) => cells,
            Cells::Paged(pages) => unsafe {
                slice::from_raw_parts_mut(pages.written().cast(), pages.len() / size_of::<T>())
            },
        }
    }
}

/// A word in which each byte says where it stands.
pub fn word(place: usize) -> u64 {
    (place as u64 + 1).wrapping_mul(0x9e37_79b9_7f4a_7c15)
}

pub fn byte(place: usize) -> u8 {
    (word(place) >> 56) as u8
}
