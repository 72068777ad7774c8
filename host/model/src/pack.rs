//! Records written as MessagePack: "the shortest, non-negative numbers unsigned".

use crate::keys::{Bound, Range};
use crate::records::{Borrow, Manifest, Run, Segment, Tree, View};

fn array(count: usize) -> Vec<u8> {
    match count {
        0..=0xf => vec![0x90 + count as u8],
        0x10..=0xffff => [&[0xdc], &(count as u16).to_be_bytes()[..]].concat(),
        _ => [&[0xdd], &(count as u32).to_be_bytes()[..]].concat(),
    }
}

fn list<T>(items: &[T], item: impl Fn(&T) -> Vec<u8>) -> Vec<u8> {
    let mut bytes = array(items.len());
    items.iter().for_each(|each| bytes.extend(item(each)));
    bytes
}

fn record(fields: &[Vec<u8>]) -> Vec<u8> {
    list(fields, Vec::clone)
}

fn optional<T>(value: &Option<T>, present: impl Fn(&T) -> Vec<u8>) -> Vec<u8> {
    value.as_ref().map_or(vec![0xc0], present)
}

fn number(value: i128) -> Vec<u8> {
    let (first, width) = match value {
        -0x20..=0x7f => return vec![value as u8],
        0x80..=0xff => (0xcc, 1),
        0x100..=0xffff => (0xcd, 2),
        0x1_0000..=0xffff_ffff => (0xce, 4),
        0x1_0000_0000.. => (0xcf, 8),
        -0x80..=-0x21 => (0xd0, 1),
        -0x8000..=-0x81 => (0xd1, 2),
        -0x8000_0000..=-0x8001 => (0xd2, 4),
        _ => (0xd3, 8),
    };
    [&[first], &value.to_be_bytes()[16 - width..]].concat()
}

fn bin(bytes: &[u8]) -> Vec<u8> {
    let length = bytes.len();
    let head = match length {
        0..=0xff => vec![0xc4, length as u8],
        0x100..=0xffff => [&[0xc5], &(length as u16).to_be_bytes()[..]].concat(),
        _ => [&[0xc6], &(length as u32).to_be_bytes()[..]].concat(),
    };
    [&head, bytes].concat()
}

fn bound(bound: &Bound) -> Vec<u8> {
    match bound {
        Bound::Unbounded => vec![0xc0],
        Bound::Included(key) => record(&[number(0), bin(key)]),
        Bound::Excluded(key) => record(&[number(1), bin(key)]),
    }
}

fn range(range: &Range) -> Vec<u8> {
    record(&[bound(&range.start), bound(&range.end)])
}

fn view(view: &View) -> Vec<u8> {
    record(&[
        bin(&view.id.0),
        bin(&view.sst.0),
        bin(&view.first),
        optional(&view.last, |key| bin(key)),
        optional(&view.visible, range),
    ])
}

fn run(run: &Run) -> Vec<u8> {
    record(&[number(run.id.into()), list(&run.views, view)])
}

fn tree(tree: &Tree) -> Vec<u8> {
    record(&[
        optional(&tree.view_watermark, |id| bin(&id.0)),
        optional(&tree.sst_watermark, |id| bin(&id.0)),
        list(&tree.l0, view),
        list(&tree.runs, run),
    ])
}

fn segment(segment: &Segment) -> Vec<u8> {
    record(&[bin(&segment.prefix), tree(&segment.tree)])
}

pub fn segments(segments: &[Segment]) -> Vec<u8> {
    list(segments, segment)
}

fn borrow(borrow: &Borrow) -> Vec<u8> {
    record(&[
        bin(&borrow.path),
        bin(&borrow.source),
        optional(&borrow.last, |id| bin(id)),
        list(&borrow.ids, |id| bin(&id.0)),
    ])
}

pub fn manifest(manifest: &Manifest) -> Vec<u8> {
    record(&[
        vec![if manifest.initialized { 0xc3 } else { 0xc2 }],
        tree(&manifest.tree),
        segments(&manifest.segments),
        optional(&manifest.extractor, |name| bin(name)),
        number(manifest.next_wal_sst_id.into()),
        number(manifest.replay_after_wal_id.into()),
        number(manifest.last_l0_clock_tick.into()),
        number(manifest.last_l0_seq.into()),
        number(manifest.recent_snapshot_min_seq.into()),
        list(&manifest.borrows, borrow),
        number(manifest.writer_epoch.into()),
        number(manifest.compactor_epoch.into()),
    ])
}
