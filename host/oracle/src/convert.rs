//! Plain records to the original's and back.

use crate::bytes_range::BytesRange;
use crate::db_state::{SortedRun, SsTableHandle, SsTableId, SsTableInfo, SsTableView};
use crate::manifest::{self, ExternalDb, LsmTreeState, ManifestCore};
use crate::records::{Borrow, Id, Key, Manifest, Range, Run, Segment, Tree, View};
use bytes::Bytes;
use std::ops::Bound;
use std::ops::RangeBounds;
use std::sync::Arc;
use ulid::Ulid;
use uuid::Uuid;

/// Paths and names are any bytes here and `String` there: byte b stands as the character U+00b, which
/// keeps equality and order.
pub fn to_text(bytes: &[u8]) -> String {
    bytes.iter().map(|byte| char::from(*byte)).collect()
}

fn from_text(text: &str) -> Key {
    text.chars().map(|c| c as u8).collect()
}

fn to_bytes(bytes: &Key) -> Bytes {
    Bytes::copy_from_slice(bytes)
}

fn to_bound(bound: &Bound<Key>) -> Bound<Bytes> {
    bound.as_ref().map(to_bytes)
}

fn from_bound(bound: Bound<&Bytes>) -> Bound<Key> {
    bound.map(|key| key.to_vec())
}

/// `None` if the build's own `BytesRange` takes the range for empty.
pub fn to_range(range: &Range) -> Option<BytesRange> {
    BytesRange::try_new(to_bound(&range.start), to_bound(&range.end))
}

fn to_sst_id(id: &Id) -> SsTableId {
    SsTableId::Compacted(Ulid::from_bytes(*id))
}

pub fn from_sst_id(id: &SsTableId) -> Id {
    id.unwrap_compacted_id().to_bytes()
}

#[allow(clippy::needless_update)]
fn to_view(view: &View) -> SsTableView {
    let info = SsTableInfo {
        first_entry: Some(to_bytes(&view.first)),
        last_entry: view.last.as_ref().map(to_bytes),
        // The real record has further fields, which no operation reads.
        ..Default::default()
    };
    let visible =
        view.visible.as_ref().map(|range| BytesRange::new(to_bound(&range.start), to_bound(&range.end)));
    let sst = SsTableHandle::new(to_sst_id(&view.sst), 0, info);
    SsTableView::new_projected(Ulid::from_bytes(view.id), sst, visible)
}

fn from_view(view: &SsTableView) -> View {
    let info = &view.sst.info;
    let from_range = |range: &BytesRange| Range {
        start: from_bound(RangeBounds::start_bound(range)),
        end: from_bound(RangeBounds::end_bound(range)),
    };
    View {
        id: view.id.to_bytes(),
        sst: from_sst_id(&view.sst.id),
        first: info.first_entry.as_ref().expect("a view has a first key").to_vec(),
        last: info.last_entry.as_ref().map(|key| key.to_vec()),
        visible: view.visible_range.as_ref().map(from_range),
    }
}

fn to_tree(tree: &Tree) -> Arc<LsmTreeState> {
    Arc::new(LsmTreeState {
        last_compacted_l0_sst_view_id: tree.view_watermark.map(Ulid::from_bytes),
        last_compacted_l0_sst_id: tree.sst_watermark.map(Ulid::from_bytes),
        l0: tree.l0.iter().map(to_view).collect(),
        compacted: tree
            .runs
            .iter()
            .map(|run| SortedRun::new(run.id, run.views.iter().map(to_view)))
            .collect(),
    })
}

fn from_tree(tree: &LsmTreeState) -> Tree {
    let from_run =
        |run: &SortedRun| Run { id: run.id, views: run.sst_views().iter().map(from_view).collect() };
    Tree {
        view_watermark: tree.last_compacted_l0_sst_view_id.map(Ulid::to_bytes),
        sst_watermark: tree.last_compacted_l0_sst_id.map(Ulid::to_bytes),
        l0: tree.l0.iter().map(from_view).collect(),
        runs: tree.compacted.iter().map(from_run).collect(),
    }
}

fn to_segment(segment: &Segment) -> manifest::Segment {
    manifest::Segment { prefix: to_bytes(&segment.prefix), tree: to_tree(&segment.tree) }
}

pub fn from_segments(segments: &[manifest::Segment]) -> Vec<Segment> {
    let from = |segment: &manifest::Segment| Segment {
        prefix: segment.prefix.to_vec(),
        tree: from_tree(&segment.tree),
    };
    segments.iter().map(from).collect()
}

fn to_borrow(borrow: &Borrow) -> ExternalDb {
    ExternalDb {
        path: to_text(&borrow.path),
        source_checkpoint_id: Uuid::from_bytes(borrow.source),
        final_checkpoint_id: borrow.final_checkpoint.map(Uuid::from_bytes),
        sst_ids: borrow.ids.iter().map(to_sst_id).collect(),
    }
}

fn from_borrow(borrow: &ExternalDb) -> Borrow {
    Borrow {
        path: from_text(&borrow.path),
        source: *borrow.source_checkpoint_id.as_bytes(),
        final_checkpoint: borrow.final_checkpoint_id.map(|id| *id.as_bytes()),
        ids: borrow.sst_ids.iter().map(from_sst_id).collect(),
    }
}

/// The real bodies may panic here, on a lawful view that starts excluded.
pub(crate) fn to_manifest(plain: &Manifest) -> manifest::Manifest {
    let mut core = ManifestCore::new();
    core.initialized = plain.initialized;
    core.tree = to_tree(&plain.tree);
    core.segments = plain.segments.iter().map(to_segment).collect();
    core.segment_extractor_name = plain.extractor.as_ref().map(|name| to_text(name));
    core.next_wal_sst_id = plain.next_wal_sst_id;
    core.replay_after_wal_id = plain.replay_after_wal_id;
    core.last_l0_clock_tick = plain.last_l0_clock_tick;
    core.last_l0_seq = plain.last_l0_seq;
    core.recent_snapshot_min_seq = plain.recent_snapshot_min_seq;
    manifest::Manifest {
        core,
        external_dbs: plain.borrows.iter().map(to_borrow).collect(),
        writer_epoch: plain.writer_epoch,
        compactor_epoch: plain.compactor_epoch,
    }
}

pub(crate) fn from_manifest(manifest: &manifest::Manifest) -> Manifest {
    let core = &manifest.core;
    Manifest {
        initialized: core.initialized,
        tree: from_tree(&core.tree),
        segments: from_segments(&core.segments),
        extractor: core.segment_extractor_name.as_deref().map(from_text),
        next_wal_sst_id: core.next_wal_sst_id,
        replay_after_wal_id: core.replay_after_wal_id,
        last_l0_clock_tick: core.last_l0_clock_tick,
        last_l0_seq: core.last_l0_seq,
        recent_snapshot_min_seq: core.recent_snapshot_min_seq,
        borrows: manifest.external_dbs.iter().map(from_borrow).collect(),
        writer_epoch: manifest.writer_epoch,
        compactor_epoch: manifest.compactor_epoch,
    }
}
