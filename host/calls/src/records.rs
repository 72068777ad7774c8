//! The records as the generator builds them, and as values in document 01's order.

use crate::value::Value::{self, Array, Bin, Bool, Int, Nil, Record};

pub type Bytes = Vec<u8>;
pub type Id = [u8; 16];

/// `None` is unbounded; else the key, and whether it is excluded.
pub type Bound = Option<(bool, Bytes)>;

#[derive(Clone, Debug, PartialEq)]
pub struct Range {
    pub start: Bound,
    pub end: Bound,
}

#[derive(Clone)]
pub struct View {
    pub id: Id,
    pub sst: Id,
    pub first: Bytes,
    pub last: Option<Bytes>,
    pub visible: Option<Range>,
}

#[derive(Clone)]
pub struct Run {
    pub id: u32,
    pub views: Vec<View>,
}

#[derive(Clone, Default)]
pub struct Tree {
    pub view_watermark: Option<Id>,
    pub sst_watermark: Option<Id>,
    pub l0: Vec<View>,
    pub runs: Vec<Run>,
}

#[derive(Clone)]
pub struct Segment {
    pub prefix: Bytes,
    pub tree: Tree,
}

#[derive(Clone)]
pub struct Borrow {
    pub path: Bytes,
    pub source: Id,
    pub last: Option<Id>,
    pub ids: Vec<Id>,
}

#[derive(Clone)]
pub struct Manifest {
    pub initialized: bool,
    pub tree: Tree,
    pub segments: Vec<Segment>,
    pub extractor: Option<Bytes>,
    /// next_wal_sst_id, replay_after_wal_id.
    pub wal: [u64; 2],
    pub tick: i64,
    /// last_l0_seq, recent_snapshot_min_seq.
    pub seqs: [u64; 2],
    pub borrows: Vec<Borrow>,
    /// The writer's, the compactor's.
    pub epochs: [u64; 2],
}

impl Range {
    /// Whether some key is in both: the greater of the two least keys is past neither end.
    pub fn meets(&self, other: &Range) -> bool {
        let key = std::cmp::max(self.least(), other.least());
        self.ends_at_or_after(&key) && other.ends_at_or_after(&key)
    }

    fn least(&self) -> Bytes {
        match &self.start {
            None => vec![],
            Some((false, key)) => key.clone(),
            Some((true, key)) => [key.as_slice(), &[0]].concat(),
        }
    }

    fn ends_at_or_after(&self, key: &Bytes) -> bool {
        match &self.end {
            None => true,
            Some((false, end)) => key <= end,
            Some((true, end)) => key < end,
        }
    }

    pub fn value(&self) -> Value {
        let bound = |bound: &Bound| match bound {
            None => Nil,
            Some((excluded, key)) => Record(vec![Int(i128::from(*excluded)), Bin(key.clone())]),
        };
        Record(vec![bound(&self.start), bound(&self.end)])
    }
}

fn id(id: &Id) -> Value {
    Bin(id.to_vec())
}

fn optional<T>(value: &Option<T>, present: impl Fn(&T) -> Value) -> Value {
    value.as_ref().map_or(Nil, present)
}

fn list<T>(items: &[T], item: impl Fn(&T) -> Value) -> Value {
    Array(items.iter().map(item).collect())
}

impl View {
    pub fn physical(&self) -> Range {
        Range { start: Some((false, self.first.clone())), end: self.last.clone().map(|key| (false, key)) }
    }

    fn value(&self) -> Value {
        let last = optional(&self.last, |key| Bin(key.clone()));
        Record(vec![
            id(&self.id),
            id(&self.sst),
            Bin(self.first.clone()),
            last,
            optional(&self.visible, Range::value),
        ])
    }
}

impl Tree {
    pub fn views(&self) -> impl Iterator<Item = &View> {
        self.l0.iter().chain(self.runs.iter().flat_map(|run| &run.views))
    }

    fn value(&self) -> Value {
        let run = |run: &Run| Record(vec![Int(run.id.into()), list(&run.views, View::value)]);
        let (l0, runs) = (list(&self.l0, View::value), list(&self.runs, run));
        Record(vec![optional(&self.view_watermark, id), optional(&self.sst_watermark, id), l0, runs])
    }
}

impl Manifest {
    pub fn new() -> Manifest {
        Manifest {
            initialized: true,
            tree: Tree::default(),
            segments: vec![],
            extractor: None,
            wal: [1, 0],
            tick: i64::MIN,
            seqs: [0, 0],
            borrows: vec![],
            epochs: [0, 0],
        }
    }

    /// The SST ids of all views.
    pub fn ids(&self) -> Vec<Id> {
        let trees = std::iter::once(&self.tree).chain(self.segments.iter().map(|segment| &segment.tree));
        trees.flat_map(Tree::views).map(|view| view.sst).collect()
    }

    pub fn value(&self) -> Value {
        let segment = |segment: &Segment| Record(vec![Bin(segment.prefix.clone()), segment.tree.value()]);
        let borrow = |borrow: &Borrow| {
            let (last, ids) = (optional(&borrow.last, id), list(&borrow.ids, id));
            Record(vec![Bin(borrow.path.clone()), id(&borrow.source), last, ids])
        };
        let int = |number: u64| Int(number.into());
        Record(vec![
            Bool(self.initialized),
            self.tree.value(),
            list(&self.segments, segment),
            optional(&self.extractor, |name| Bin(name.clone())),
            int(self.wal[0]),
            int(self.wal[1]),
            Int(self.tick.into()),
            int(self.seqs[0]),
            int(self.seqs[1]),
            list(&self.borrows, borrow),
            int(self.epochs[0]),
            int(self.epochs[1]),
        ])
    }
}
