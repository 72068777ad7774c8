//! The lawful check, by which the oracle tells what it may hand to the original. It leans on none of
//! the range code that the original runs on.

use crate::records::{Key, Manifest, Range, Run, Segment, Tree, View};
use std::ops::Bound::{self, Excluded, Included, Unbounded};

pub const PREFIX_LIMIT: usize = 32;
pub const KEY_LIMIT: usize = 64;
pub const INPUT_LIMIT: usize = 65_536;
pub const SOURCE_LIMIT: usize = 8;

/// What L1 counts.
#[derive(Default)]
struct Tally {
    segments: usize,
    views: usize,
    runs: usize,
    borrows: usize,
    ids: usize,
    bytes: usize,
    too_long: bool,
}

impl Tally {
    fn string(&mut self, bytes: &[u8], limit: usize) {
        self.bytes += bytes.len();
        self.too_long |= bytes.len() > limit;
    }

    fn bound(&mut self, bound: &Bound<Key>) {
        if let Included(key) | Excluded(key) = bound {
            self.string(key, KEY_LIMIT);
        }
    }

    fn tree(&mut self, tree: &Tree) {
        self.runs += tree.runs.len();
        for view in tree.views() {
            self.views += 1;
            self.string(&view.first, KEY_LIMIT);
            self.string(view.last.as_deref().unwrap_or_default(), KEY_LIMIT);
            if let Some(visible) = &view.visible {
                self.bound(&visible.start);
                self.bound(&visible.end);
            }
        }
    }

    fn segments(&mut self, segments: &[Segment]) {
        self.segments += segments.len();
        for segment in segments {
            self.string(&segment.prefix, PREFIX_LIMIT);
            self.tree(&segment.tree);
        }
    }

    fn is_within_l1(&self) -> bool {
        self.segments <= 64
            && self.views <= 512
            && self.runs <= 128
            && self.borrows <= 32
            && self.ids <= 512
            && self.bytes <= 8192
            && !self.too_long
    }
}

pub fn segments_keep_l1(segments: &[Segment]) -> bool {
    let mut tally = Tally::default();
    tally.segments(segments);
    tally.is_within_l1()
}

pub fn keeps_l1(manifest: &Manifest) -> bool {
    let mut tally = Tally::default();
    tally.tree(&manifest.tree);
    tally.segments(&manifest.segments);
    tally.string(manifest.extractor.as_deref().unwrap_or_default(), PREFIX_LIMIT);
    for borrow in &manifest.borrows {
        tally.borrows += 1;
        tally.ids += borrow.ids.len();
        tally.string(&borrow.path, KEY_LIMIT);
    }
    tally.is_within_l1()
}

pub fn is_lawful(manifest: &Manifest) -> bool {
    keeps_l1(manifest)
        && keeps_l2_and_l3(&manifest.segments)
        && manifest.trees().all(|tree| tree.views().all(keeps_l4) && tree.runs.iter().all(keeps_l5))
}

fn keeps_l2_and_l3(segments: &[Segment]) -> bool {
    // Once prefixes ascend, a prefix that begins another also begins its next neighbour.
    let apart = |a: &Segment, b: &Segment| a.prefix < b.prefix && !b.prefix.starts_with(&a.prefix);
    segments.windows(2).all(|pair| apart(&pair[0], &pair[1]))
}

fn keeps_l4(view: &View) -> bool {
    let end = view.last.clone().map_or(Unbounded, Included);
    let physical = Range { start: Included(view.first.clone()), end };
    match &view.visible {
        None => share_a_key(&[&physical]),
        Some(visible) => share_a_key(&[&physical, visible]),
    }
}

/// Some key is in all the ranges: the greatest of their least keys is past no end.
fn share_a_key(ranges: &[&Range]) -> bool {
    let least = |range: &&Range| match &range.start {
        Unbounded => vec![],
        Included(key) => key.clone(),
        Excluded(key) => [key.as_slice(), &[0]].concat(),
    };
    let key = ranges.iter().map(least).max().unwrap_or_default();
    ranges.iter().all(|range| match &range.end {
        Unbounded => true,
        Included(end) => key <= *end,
        Excluded(end) => key < *end,
    })
}

fn keeps_l5(run: &Run) -> bool {
    let follows = |a: &View, b: &View| a.first < b.first && a.last.iter().all(|last| *last < b.first);
    !run.views.is_empty() && run.views.windows(2).all(|pair| follows(&pair[0], &pair[1]))
}

impl Range {
    pub fn is_within_limit(&self) -> bool {
        let mut tally = Tally::default();
        tally.bound(&self.start);
        tally.bound(&self.end);
        !tally.too_long
    }
}
