//! For the benchmark: an operation in its parts, so that the original's call can be timed alone. Nothing is
//! judged here: the original has no check of L1 to L5.

use crate::bytes_range::BytesRange;
use crate::checkpoint::Checkpoint;
use crate::clone::CloneSource;
use crate::convert::{from_manifest, from_segments, to_manifest, to_text};
use crate::manifest::{merge_segments_from_compactor, merge_segments_from_writer, Manifest, ProjectionConfig, Segment};
use crate::records;
use bytes::Bytes;
use slatedb_common::DbRand;
use std::ops::Bound::{Excluded, Included};
use std::sync::Arc;
use uuid::Uuid;

/// A manifest in the original's own records.
#[derive(Clone)]
pub struct Loaded(Manifest);

/// A range in the original's own form.
pub struct Bounds(BytesRange);

/// A prefix in the original's own form.
pub struct Prefix(Bytes);

/// From one key to before another.
pub fn bounds(from: &[u8], to: &[u8]) -> Bounds {
    let key = Bytes::copy_from_slice;
    Bounds(BytesRange::new(Included(key(from)), Excluded(key(to))))
}

pub fn prefix(bytes: &[u8]) -> Prefix {
    Prefix(Bytes::copy_from_slice(bytes))
}

impl Loaded {
    pub fn from(bytes: &[u8]) -> Loaded {
        Loaded(to_manifest(&records::Manifest::read(bytes).expect("a manifest")))
    }

    pub fn bytes(&self) -> Vec<u8> {
        from_manifest(&self.0).write()
    }

    pub fn prefixes(&self) -> Vec<Vec<u8>> {
        self.0.core.segments.iter().map(|segment| segment.prefix.to_vec()).collect()
    }

    /// Whether there is a tree.
    pub fn lookup(&self, prefix: &[u8]) -> bool {
        self.0.core.tree_for_segment(prefix).is_some()
    }

    /// How many segments are selected.
    pub fn select(&self, range: &Bounds) -> usize {
        self.0.core.select_segments(&range.0).map_or(0, |window| window.len())
    }

    /// The manifest narrowed to a range.
    pub fn project(&self, range: &Bounds) -> Loaded {
        let global_range = Some(range.0.clone());
        let config = ProjectionConfig { global_range, segment_filter: None, segment_projection: None };
        Loaded(Manifest::projected(&self.0, &config).expect("there are no own ranges"))
    }

    /// Whether it went in, or was there.
    pub fn insert(&mut self, prefix: &Prefix) -> bool {
        self.0.core.maybe_insert_tree(&prefix.0).is_ok()
    }

    /// Both merges of the writer's segments with a compactor's. Data that only the compactor has ends the first by a panic.
    pub fn merge_from_writer(&self, compactor: &Loaded) -> Merged {
        Merged(merge_segments_from_writer(&compactor.0.core.segments, &self.0.core.segments))
    }

    pub fn merge_from_compactor(&self, compactor: &Loaded) -> Merged {
        Merged(merge_segments_from_compactor(&self.0.core.segments, &compactor.0.core.segments))
    }

    /// How many ids it owns.
    pub fn owned(&self) -> usize {
        self.0.owned_ssts().len()
    }

    pub fn cloned(&self, path: &[u8], checkpoint: u128, fresh: &[u128]) -> Loaded {
        Loaded(Manifest::cloned(&self.0, to_text(path), uuid(checkpoint), lent(fresh)))
    }
}

fn uuid(id: u128) -> Uuid {
    Uuid::from_bytes(id.to_be_bytes())
}

// The original asks for an `Arc`, and hands it to no other thread.
#[allow(clippy::arc_with_non_send_sync)]
fn lent(fresh: &[u128]) -> Arc<DbRand> {
    Arc::new(DbRand::lent(fresh.iter().copied().map(uuid).collect()))
}

/// The union of manifests, each with its path and checkpoint.
pub fn union<'a>(sources: impl Iterator<Item = (Loaded, &'a [u8], u128)>, fresh: &[u128]) -> Loaded {
    let source = |(loaded, path, checkpoint): (Loaded, &[u8], u128)| CloneSource {
        path: to_text(path).into(),
        manifest: loaded.0,
        checkpoint: Checkpoint { id: uuid(checkpoint) },
    };
    Loaded(Manifest::cloned_from_union(sources.map(source).collect(), lent(fresh)).expect("the sources are disjoint"))
}

/// A segment list in the original's own records.
pub struct Merged(Vec<Segment>);

impl Merged {
    pub fn bytes(&self) -> Vec<u8> {
        records::write_segments(&from_segments(&self.0))
    }

    pub fn count(&self) -> usize {
        self.0.len()
    }
}
