//! What is given to a call to be read alone: it ends at the end of pages that cannot be written, where pages are used.

use crate::pages::{self, Pages};
use crate::words;
use std::ops::Deref;
use std::slice;

pub enum Given<T> {
    Plain(Vec<T>),
    /// Pages, and how many cells stand at their end.
    Paged(Pages, usize),
}

impl<T: Copy> Given<T> {
    pub fn of(cells: &[T]) -> Given<T> {
        if !pages::used() {
            return Given::Plain(cells.to_vec());
        }
        let pages = Pages::new(size_of_val(cells));
        // The pages are at least as long, and nobody else holds them.
        unsafe {
            let to = pages.written().add(pages.len() - size_of_val(cells));
            to.cast::<T>().copy_from(cells.as_ptr(), cells.len());
        }
        Given::Paged(pages, cells.len())
    }

    /// All of them, where there are so many.
    pub fn array<const N: usize>(&self) -> &[T; N] {
        self.first_chunk().filter(|_| self.len() == N).expect("as many as were given")
    }
}

impl<T> Deref for Given<T> {
    type Target = [T];

    fn deref(&self) -> &[T] {
        match self {
            Given::Plain(cells) => cells,
            // As they were laid there; the start is aligned, since the end is and the size of a cell divides it.
            Given::Paged(pages, count) => unsafe {
                slice::from_raw_parts(pages.read().add(pages.len() - count * size_of::<T>()).cast(), *count)
            },
        }
    }
}

pub fn bytes(word: &str) -> Option<Given<u8>> {
    Some(Given::of(&words::bytes(word)?))
}

pub fn ids(word: &str) -> Option<Given<u64>> {
    Some(Given::of(&words::ids(word)?))
}
