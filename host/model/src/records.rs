//! The records, and how much room they take.

use crate::keys::{Bound, Key, Range};

/// A ULID or a UUID: both "compare as 16 bytes".
pub type Bytes16 = [u8; 16];

#[derive(Clone, Copy, Debug, PartialEq)]
pub struct ViewId(pub Bytes16);

#[derive(Clone, Copy, Debug, PartialEq, Eq, PartialOrd, Ord)]
pub struct SstId(pub Bytes16);

#[derive(Clone, Debug)]
pub struct View {
    pub id: ViewId,
    pub sst: SstId,
    pub first: Key,
    pub last: Option<Key>,
    pub visible: Option<Range>,
}

#[derive(Clone, Debug)]
pub struct Run {
    pub id: u32,
    pub views: Vec<View>,
}

#[derive(Clone, Debug, Default)]
pub struct Tree {
    pub view_watermark: Option<ViewId>,
    pub sst_watermark: Option<SstId>,
    pub l0: Vec<View>,
    pub runs: Vec<Run>,
}

#[derive(Clone, Debug)]
pub struct Segment {
    pub prefix: Key,
    pub tree: Tree,
}

#[derive(Clone, Debug)]
pub struct Borrow {
    pub path: Key,
    pub source: Bytes16,
    pub last: Option<Bytes16>,
    pub ids: Vec<SstId>,
}

#[derive(Clone, Debug)]
pub struct Manifest {
    pub initialized: bool,
    pub tree: Tree,
    pub segments: Vec<Segment>,
    pub extractor: Option<Key>,
    pub next_wal_sst_id: u64,
    pub replay_after_wal_id: u64,
    pub last_l0_clock_tick: i64,
    pub last_l0_seq: u64,
    pub recent_snapshot_min_seq: u64,
    pub borrows: Vec<Borrow>,
    pub writer_epoch: u64,
    pub compactor_epoch: u64,
}

impl View {
    /// "Physical range: first key included, to last key included or unbounded."
    pub fn physical(&self) -> Range {
        let end = self.last.clone().map_or(Bound::Unbounded, Bound::Included);
        Range::new(Bound::Included(self.first.clone()), end)
    }

    /// The range met with the visible one, if there is one.
    fn seen(&self, range: Range) -> Range {
        self.visible.as_ref().map_or(range.clone(), |visible| range.meet(visible))
    }

    /// "Effective: physical met with visible."
    pub fn effective(&self) -> Range {
        self.seen(self.physical())
    }

    /// "Span: as physical, but ending at the next view's first key, excluded, if its run has a next
    /// view; met with visible."
    pub fn span(&self, next: Option<&View>) -> Range {
        let mut range = self.physical();
        if let Some(next) = next {
            range.end = Bound::Excluded(next.first.clone());
        }
        self.seen(range)
    }

    fn keys(&self) -> Vec<&Key> {
        let mut keys = vec![&self.first];
        keys.extend(&self.last);
        if let Some(visible) = &self.visible {
            keys.extend(visible.start.key());
            keys.extend(visible.end.key());
        }
        keys
    }
}

impl Tree {
    /// "Empty means no L0 and no run, watermarks ignored."
    pub fn is_empty(&self) -> bool {
        self.l0.is_empty() && self.runs.is_empty()
    }

    /// L0, then run by run.
    pub fn views(&self) -> Vec<&View> {
        self.l0.iter().chain(self.runs.iter().flat_map(|run| &run.views)).collect()
    }
}

impl Manifest {
    /// The manifest that a new database has; MessagePack's sample bytes are this one's.
    pub fn new() -> Manifest {
        Manifest {
            initialized: true,
            tree: Tree::default(),
            segments: vec![],
            extractor: None,
            next_wal_sst_id: 1,
            replay_after_wal_id: 0,
            last_l0_clock_tick: i64::MIN,
            last_l0_seq: 0,
            recent_snapshot_min_seq: 0,
            borrows: vec![],
            writer_epoch: 0,
            compactor_epoch: 0,
        }
    }

    /// The unsegmented tree, then those of the segments.
    pub fn trees(&self) -> Vec<&Tree> {
        std::iter::once(&self.tree).chain(self.segments.iter().map(|segment| &segment.tree)).collect()
    }

    pub fn views(&self) -> Vec<&View> {
        self.trees().iter().flat_map(|tree| tree.views()).collect()
    }

    /// Every byte string that has a limit: prefixes and name (32 bytes), keys and paths (64).
    pub fn short_strings(&self) -> Vec<&Key> {
        self.segments.iter().map(|segment| &segment.prefix).chain(&self.extractor).collect()
    }

    pub fn long_strings(&self) -> Vec<&Key> {
        let keys = self.views().into_iter().flat_map(View::keys);
        keys.chain(self.borrows.iter().map(|borrow| &borrow.path)).collect()
    }

    pub fn size(&self) -> Size {
        let strings = self.short_strings().into_iter().chain(self.long_strings());
        Size {
            segments: self.segments.len() as u64,
            views: self.views().len() as u64,
            runs: self.trees().iter().map(|tree| tree.runs.len() as u64).sum(),
            borrows: self.borrows.len() as u64,
            ids: self.borrows.iter().map(|borrow| borrow.ids.len() as u64).sum(),
            bytes: strings.map(|string| string.len() as u64).sum(),
        }
    }
}

/// How much of each table something fills, or how much is lent.
#[derive(Clone, Copy, Debug, Default)]
pub struct Size {
    pub segments: u64,
    pub views: u64,
    pub runs: u64,
    pub borrows: u64,
    pub ids: u64,
    pub bytes: u64,
}

impl Size {
    pub fn fits(&self, room: &Size) -> bool {
        self.segments <= room.segments
            && self.views <= room.views
            && self.runs <= room.runs
            && self.borrows <= room.borrows
            && self.ids <= room.ids
            && self.bytes <= room.bytes
    }
}
