//! Document 01's records in plain form, out of MessagePack and into it. `None` is "not the record".

use crate::msgpack::{self, Value};
use std::ops::Bound::{self, Excluded, Included, Unbounded};

pub type Id = [u8; 16];
pub type Key = Vec<u8>;

pub struct Range {
    pub start: Bound<Key>,
    pub end: Bound<Key>,
}

pub struct View {
    pub id: Id,
    pub sst: Id,
    pub first: Key,
    pub last: Option<Key>,
    pub visible: Option<Range>,
}

pub struct Run {
    pub id: u32,
    pub views: Vec<View>,
}

pub struct Tree {
    pub view_watermark: Option<Id>,
    pub sst_watermark: Option<Id>,
    pub l0: Vec<View>,
    pub runs: Vec<Run>,
}

pub struct Segment {
    pub prefix: Key,
    pub tree: Tree,
}

pub struct Borrow {
    pub path: Key,
    pub source: Id,
    pub final_checkpoint: Option<Id>,
    pub ids: Vec<Id>,
}

pub struct Manifest {
    pub initialized: bool,
    pub tree: Tree,
    pub segments: Vec<Segment>,
    pub extractor: Option<Key>,
    pub next_wal_sst_id: u64,
    pub replay_after_wal_id: u64,
    pub last_l0_clock_tick: i64,
    pub last_l0_seq: u64,
    pub recent_snapshot_min_seq: u64,
    pub borrows: Vec<Borrow>,
    pub writer_epoch: u64,
    pub compactor_epoch: u64,
}

impl Tree {
    pub fn views(&self) -> impl Iterator<Item = &View> {
        self.l0.iter().chain(self.runs.iter().flat_map(|run| &run.views))
    }
}

impl Manifest {
    pub fn trees(&self) -> impl Iterator<Item = &Tree> {
        std::iter::once(&self.tree).chain(self.segments.iter().map(|segment| &segment.tree))
    }
}

// Reading.

fn array(value: &Value, least: usize) -> Option<&[Value]> {
    match value {
        Value::Array(values) if values.len() >= least => Some(values),
        _ => None,
    }
}

fn list<T>(value: &Value, element: impl Fn(&Value) -> Option<T>) -> Option<Vec<T>> {
    array(value, 0)?.iter().map(element).collect()
}

fn optional<T>(value: &Value, present: impl Fn(&Value) -> Option<T>) -> Option<Option<T>> {
    match value {
        Value::Nil => Some(None),
        _ => Some(Some(present(value)?)),
    }
}

fn bin(value: &Value) -> Option<Key> {
    match value {
        Value::Bin(bytes) => Some(bytes.clone()),
        _ => None,
    }
}

fn id(value: &Value) -> Option<Id> {
    bin(value)?.try_into().ok()
}

fn int<T: TryFrom<i128>>(value: &Value) -> Option<T> {
    match value {
        Value::Int(number) => T::try_from(*number).ok(),
        _ => None,
    }
}

fn bound(value: &Value) -> Option<Bound<Key>> {
    if let Value::Nil = value {
        return Some(Unbounded);
    }
    let fields = array(value, 2)?;
    match int(&fields[0])? {
        0u8 => Some(Included(bin(&fields[1])?)),
        1u8 => Some(Excluded(bin(&fields[1])?)),
        _ => None,
    }
}

impl Range {
    pub fn read(value: &Value) -> Option<Range> {
        let fields = array(value, 2)?;
        Some(Range { start: bound(&fields[0])?, end: bound(&fields[1])? })
    }
}

fn view(value: &Value) -> Option<View> {
    let fields = array(value, 5)?;
    Some(View {
        id: id(&fields[0])?,
        sst: id(&fields[1])?,
        first: bin(&fields[2])?,
        last: optional(&fields[3], bin)?,
        visible: optional(&fields[4], Range::read)?,
    })
}

fn run(value: &Value) -> Option<Run> {
    let fields = array(value, 2)?;
    Some(Run { id: int(&fields[0])?, views: list(&fields[1], view)? })
}

fn tree(value: &Value) -> Option<Tree> {
    let fields = array(value, 4)?;
    Some(Tree {
        view_watermark: optional(&fields[0], id)?,
        sst_watermark: optional(&fields[1], id)?,
        l0: list(&fields[2], view)?,
        runs: list(&fields[3], run)?,
    })
}

fn segment(value: &Value) -> Option<Segment> {
    let fields = array(value, 2)?;
    Some(Segment { prefix: bin(&fields[0])?, tree: tree(&fields[1])? })
}

fn borrow(value: &Value) -> Option<Borrow> {
    let fields = array(value, 4)?;
    Some(Borrow {
        path: bin(&fields[0])?,
        source: id(&fields[1])?,
        final_checkpoint: optional(&fields[2], id)?,
        ids: list(&fields[3], id)?,
    })
}

impl Manifest {
    pub fn read(bytes: &[u8]) -> Option<Manifest> {
        let value = msgpack::read(bytes)?;
        let fields = array(&value, 12)?;
        let Value::Bool(initialized) = fields[0] else { return None };
        Some(Manifest {
            initialized,
            tree: tree(&fields[1])?,
            segments: list(&fields[2], segment)?,
            extractor: optional(&fields[3], bin)?,
            next_wal_sst_id: int(&fields[4])?,
            replay_after_wal_id: int(&fields[5])?,
            last_l0_clock_tick: int(&fields[6])?,
            last_l0_seq: int(&fields[7])?,
            recent_snapshot_min_seq: int(&fields[8])?,
            borrows: list(&fields[9], borrow)?,
            writer_epoch: int(&fields[10])?,
            compactor_epoch: int(&fields[11])?,
        })
    }
}

// Writing.

fn of_bytes(bytes: &[u8]) -> Value {
    Value::Bin(bytes.to_vec())
}

fn of_optional<T>(value: &Option<T>, present: impl Fn(&T) -> Value) -> Value {
    value.as_ref().map_or(Value::Nil, present)
}

fn of_list<T>(items: &[T], item: impl Fn(&T) -> Value) -> Value {
    Value::Array(items.iter().map(item).collect())
}

fn of_int(number: impl Into<i128>) -> Value {
    Value::Int(number.into())
}

fn of_bound(bound: &Bound<Key>) -> Value {
    match bound {
        Unbounded => Value::Nil,
        Included(key) => Value::Array(vec![of_int(0), of_bytes(key)]),
        Excluded(key) => Value::Array(vec![of_int(1), of_bytes(key)]),
    }
}

fn of_view(view: &View) -> Value {
    Value::Array(vec![
        of_bytes(&view.id),
        of_bytes(&view.sst),
        of_bytes(&view.first),
        of_optional(&view.last, |key| of_bytes(key)),
        of_optional(&view.visible, |range| Value::Array(vec![of_bound(&range.start), of_bound(&range.end)])),
    ])
}

fn of_tree(tree: &Tree) -> Value {
    Value::Array(vec![
        of_optional(&tree.view_watermark, |id| of_bytes(id)),
        of_optional(&tree.sst_watermark, |id| of_bytes(id)),
        of_list(&tree.l0, of_view),
        of_list(&tree.runs, |run| Value::Array(vec![of_int(run.id), of_list(&run.views, of_view)])),
    ])
}

fn of_segments(segments: &[Segment]) -> Value {
    of_list(segments, |segment| Value::Array(vec![of_bytes(&segment.prefix), of_tree(&segment.tree)]))
}

fn of_borrow(borrow: &Borrow) -> Value {
    Value::Array(vec![
        of_bytes(&borrow.path),
        of_bytes(&borrow.source),
        of_optional(&borrow.final_checkpoint, |id| of_bytes(id)),
        of_list(&borrow.ids, |id| of_bytes(id)),
    ])
}

pub fn write_segments(segments: &[Segment]) -> Vec<u8> {
    msgpack::write(&of_segments(segments))
}

impl Manifest {
    pub fn write(&self) -> Vec<u8> {
        msgpack::write(&Value::Array(vec![
            Value::Bool(self.initialized),
            of_tree(&self.tree),
            of_segments(&self.segments),
            of_optional(&self.extractor, |name| of_bytes(name)),
            of_int(self.next_wal_sst_id),
            of_int(self.replay_after_wal_id),
            of_int(self.last_l0_clock_tick),
            of_int(self.last_l0_seq),
            of_int(self.recent_snapshot_min_seq),
            of_list(&self.borrows, of_borrow),
            of_int(self.writer_epoch),
            of_int(self.compactor_epoch),
        ]))
    }
}
