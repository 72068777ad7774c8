//! What calls take and answer, beside encoded manifests.

use std::ops::{Bound, Range};

/// What a result may fill, in records of each kind and in bytes of prefixes, keys, paths and names.
#[derive(Clone, Copy, Debug, PartialEq, Eq)]
pub struct Room {
    pub segments: u64,
    pub views: u64,
    pub runs: u64,
    pub borrows: u64,
    pub ids: u64,
    pub bytes: u64,
}

impl Room {
    /// The most that a lawful manifest fills.
    pub const L1: Room = Room { segments: 64, views: 512, runs: 128, borrows: 32, ids: 512, bytes: 8_192 };

    pub(crate) fn numbers(&self) -> [u64; 6] {
        [self.segments, self.views, self.runs, self.borrows, self.ids, self.bytes]
    }
}

/// Which tree has a prefix.
#[derive(Clone, Copy, Debug, PartialEq, Eq)]
pub enum Tree {
    Unsegmented,
    Segment(usize),
    Absent,
}

/// Which segments have a key in a range.
#[derive(Clone, Debug, PartialEq, Eq)]
pub enum Selection {
    /// The manifest has no segments.
    Unsegmented,
    Window(Range<usize>),
}

/// The segment of a prefix that was to be inserted.
#[derive(Clone, Debug, PartialEq, Eq)]
pub enum Insertion<'a> {
    /// It is held already, at this index.
    Found(usize),
    /// It entered at this index, with an empty tree; the manifest that it is then in.
    Entered(usize, &'a [u8]),
}

/// A start and an end.
pub type Keys<'a> = (Bound<&'a [u8]>, Bound<&'a [u8]>);

/// Which trees are kept: the unsegmented one, and segment i by bit i.
#[derive(Clone, Copy, Debug, PartialEq, Eq)]
pub struct Filter {
    pub unsegmented: bool,
    pub segments: u64,
}

/// What a manifest is narrowed to.
#[derive(Clone, Copy, Debug, Default)]
pub struct Projection<'a> {
    pub global: Option<Keys<'a>>,
    pub filter: Option<Filter>,
    /// That of the unsegmented tree, then one for each segment.
    pub own: Option<&'a [Keys<'a>]>,
}

/// What a union is made of: a manifest, where it is, and the checkpoint that keeps it.
#[derive(Clone, Copy, Debug)]
pub struct Source<'a> {
    pub manifest: &'a [u8],
    pub path: &'a [u8],
    pub checkpoint: u128,
}
