//! Calls at the numbers of L1 and one past them: in what is given, and in what comes out.

use crate::manifests::{Keys, Maker};
use crate::operations::{manifest_word, range_word};
use crate::records::{Borrow, Id, Manifest, Range, Run, Segment, Tree, View};
use crate::value::to_hex;

pub fn call(maker: &mut Maker, operation: &str) -> String {
    match operation {
        "insert" => insert(maker),
        "merge_from_writer" | "merge_from_compactor" => merge(maker, operation),
        "project" => project(maker),
        "clone" => clone(maker),
        "union" => union(maker),
        "select" => format!("select {} {}", manifest_word(&brim(maker)), range_word(&wide())),
        "lookup" => format!("lookup {} {}", manifest_word(&brim(maker)), to_hex(&prefix(3))),
        _ => format!("{operation} {}", manifest_word(&brim(maker))),
    }
}

fn wide() -> Range {
    Range { start: Some((false, prefix(2))), end: Some((true, prefix(40))) }
}

fn prefix(i: usize) -> Vec<u8> {
    vec![b'a' + (i / 10) as u8, b'a' + (i % 10) as u8]
}

/// Ids that differ from one another.
fn id(i: usize) -> Id {
    (i as u128 + 1000).to_be_bytes()
}

fn views(maker: &mut Maker, count: usize) -> Vec<View> {
    let mut views: Vec<View> = (0..count).map(|_| maker.bare_view(b"k", None)).collect();
    views.iter_mut().enumerate().for_each(|(i, view)| view.sst = id(i));
    views
}

pub fn segments(count: usize) -> Vec<Segment> {
    (0..count).map(|i| Segment { prefix: prefix(i), tree: Tree::default() }).collect()
}

fn runs(maker: &mut Maker, count: usize) -> Vec<Run> {
    (0..count).map(|i| Run { id: i as u32, views: vec![maker.bare_view(b"k", Some(b"l"))] }).collect()
}

fn borrows(maker: &mut Maker, count: usize, ids: usize) -> Vec<Borrow> {
    let mut borrow = |i: usize| Borrow {
        path: format!("p{i}").into_bytes(),
        source: maker.id(4),
        last: Some(maker.id(4)),
        ids: (0..if i == 0 { ids } else { 0 }).map(id).collect(),
    };
    (0..count).map(&mut borrow).collect()
}

/// Views whose keys fill so many bytes, a multiple of 64 and a rest.
pub fn filling(maker: &mut Maker, bytes: usize) -> Vec<View> {
    let mut views = vec![];
    for i in 0..bytes / 64 {
        let mut key = vec![i as u8; 64];
        key[0] = i as u8;
        views.push(maker.bare_view(&key, None));
    }
    views.push(maker.bare_view(&vec![b'z'; bytes % 64], None));
    views
}

/// A manifest at one of the numbers, or one past it.
fn brim(maker: &mut Maker) -> Manifest {
    let mut manifest = Manifest::new();
    let past = maker.random.below(2);
    match maker.random.below(11) {
        0 => manifest.segments = segments(64 + past),
        1 => manifest.tree.l0 = views(maker, 512 + past),
        2 => manifest.tree.runs = runs(maker, 128 + past),
        3 => manifest.borrows = borrows(maker, 32 + past, 0),
        4 => manifest.borrows = borrows(maker, 1, 512 + past),
        5 => manifest.segments = vec![Segment { prefix: vec![b'p'; 32 + past], tree: Tree::default() }],
        6 => manifest.extractor = Some(vec![b'n'; 32 + past]),
        7 => manifest.tree.l0 = vec![maker.bare_view(&vec![b'k'; 64 + past], None)],
        8 => {
            let mut view = maker.bare_view(b"k", None);
            view.visible = Some(Range { start: None, end: Some((true, vec![b'z'; 64 + past])) });
            manifest.tree.l0 = vec![view];
        }
        9 => {
            manifest.borrows = borrows(maker, 1, 1);
            manifest.borrows[0].path = vec![b'p'; 64 + past];
        }
        _ => manifest.tree.l0 = filling(maker, 8192 + past),
    }
    manifest
}

/// An input of 65,536 bytes or one more: a manifest with a long further element.
pub fn long_input(maker: &mut Maker) -> Vec<u8> {
    let mut bytes = Manifest::new().value().encode();
    bytes[0] = 0x9d;
    let past = usize::from(maker.random.chance(70));
    let length = 65_536 + past - bytes.len() - 5;
    bytes.extend([0xc6]);
    bytes.extend((length as u32).to_be_bytes());
    bytes.resize(bytes.len() + length, 0);
    bytes
}

fn insert(maker: &mut Maker) -> String {
    let mut manifest = Manifest::new();
    let entering = if maker.random.chance(50) {
        manifest.segments = segments(63 + maker.random.below(2));
        maker.random.pick(&[prefix(0), prefix(63), b"zz".to_vec(), b"a".to_vec(), b"aab".to_vec()])
    } else {
        // The bytes run out: 8,192 with the prefix, or one more.
        manifest.tree.l0 = filling(maker, 8160);
        vec![b'p'; 32 - maker.random.below(2)]
    };
    if maker.random.chance(50) && manifest.segments.is_empty() {
        manifest.extractor = Some(b"x".to_vec());
    }
    format!("insert {} {}", manifest_word(&manifest), to_hex(&entering))
}

fn merge(maker: &mut Maker, operation: &str) -> String {
    let (mut writer, mut compactor) = (Manifest::new(), Manifest::new());
    let past = maker.random.below(2);
    let one = |tree: Tree| vec![Segment { prefix: b"a".to_vec(), tree }];
    match maker.random.below(3) {
        // Too many segments: only the merge from the compactor can have them.
        0 => {
            let half = 32 + past;
            let mut all = segments(2 * half);
            for segment in &mut all[half..] {
                segment.tree.runs = runs(maker, 1);
            }
            compactor.segments = all.split_off(half);
            for segment in &mut all {
                segment.tree.l0 = views(maker, 1);
            }
            writer.segments = all;
            if operation == "merge_from_writer" {
                compactor.segments.clear();
            }
        }
        // Too many views.
        1 => {
            writer.segments = one(Tree { l0: views(maker, 500), ..Tree::default() });
            compactor.segments = one(Tree { runs: runs(maker, 12 + past), ..Tree::default() });
        }
        // Too many bytes; the prefix takes one of them.
        _ => {
            writer.segments = one(Tree { l0: filling(maker, 6400), ..Tree::default() });
            let runs = filling(maker, 8192 - 6400 - 1 + past).into_iter();
            let runs = runs.map(|view| Run { id: 0, views: vec![view] }).collect();
            compactor.segments = one(Tree { runs, ..Tree::default() });
        }
    }
    format!("{operation} {} {}", manifest_word(&writer), manifest_word(&compactor))
}

fn project(maker: &mut Maker) -> String {
    let mut manifest = Manifest::new();
    if maker.random.chance(50) {
        // A mask over 64 segments.
        manifest.segments = segments(64);
        let tree = maker.tree(&Keys::default(), 2);
        manifest.segments[63].tree = tree;
        let (flag, mask) = (maker.random.below(2), maker.random.bits());
        let global = if maker.random.chance(50) { range_word(&wide()) } else { ".".to_string() };
        return format!("project {} {global} {flag}:{mask:016x} .", manifest_word(&manifest));
    }
    // Written visible ranges take bytes that the manifest did not: each view's start anew and the end.
    let count = maker.random.pick(&[62, 63, 64]);
    manifest.tree.l0 = filling(maker, 64 * count);
    manifest.tree.l0.pop();
    let end = maker.random.pick(&[None, Some((true, vec![0xff; 1])), Some((true, vec![0xff; 64]))]);
    let global = Range { start: Some((false, vec![])), end };
    format!("project {} {} . .", manifest_word(&manifest), range_word(&global))
}

fn clone(maker: &mut Maker) -> String {
    let mut manifest = Manifest::new();
    let past = maker.random.below(2);
    let mut path = b"p".to_vec();
    match maker.random.below(3) {
        0 => manifest.borrows = borrows(maker, 31 + past, 0),
        1 => {
            manifest.borrows = borrows(maker, 1, 502 + past);
            manifest.tree.l0 = views(maker, 512);
        }
        _ => {
            manifest.tree.l0 = filling(maker, 8192 - 64);
            path = vec![b'p'; 64 - past];
        }
    }
    if maker.random.chance(50) {
        // One byte or id more or less.
        manifest.extractor = Some(vec![b'n'; maker.random.below(2)]);
    }
    let (checkpoint, fresh) = (maker.id(4), maker.fresh(33));
    format!("clone {} {} {} {fresh}", manifest_word(&manifest), to_hex(&path), to_hex(&checkpoint))
}

fn union(maker: &mut Maker) -> String {
    let count = 8;
    let past = maker.random.below(2);
    let kind = maker.random.below(6);
    let fresh = maker.fresh(40);
    let mut call = format!("union {fresh}");
    for i in 0..count {
        let more = if i == 0 { past } else { 0 };
        let mut manifest = Manifest::new();
        let key = [b'a' + i as u8];
        match kind {
            // Views, runs, borrows, ids.
            0 => manifest.tree.l0 = views(maker, 64 + more),
            1 => manifest.tree.runs = runs(maker, 16 + more),
            2 => {
                manifest.tree.l0 = views(maker, 1);
                manifest.borrows = borrows(maker, 3 + more, 0);
                manifest.borrows.iter_mut().for_each(|borrow| borrow.path.push(key[0]));
            }
            3 => {
                manifest.tree.l0 = views(maker, 64 + more);
                manifest.tree.l0.iter_mut().for_each(|view| view.sst[0] = key[0]);
            }
            // Bytes.
            4 => manifest.tree.l0 = views(maker, 8),
            // Segments.
            _ => {
                manifest.extractor = Some(b"x".to_vec());
                manifest.segments = segments(8 + more);
                for segment in &mut manifest.segments {
                    segment.prefix.insert(0, key[0]);
                    segment.tree.l0 = views(maker, 1);
                }
            }
        }
        // Each source has one key of its own.
        let all =
            manifest.tree.l0.iter_mut().chain(manifest.tree.runs.iter_mut().flat_map(|run| &mut run.views));
        let length = if kind == 4 { 64 } else { 1 };
        for view in all {
            view.first = vec![key[0]; length];
            view.last = Some(view.first.clone());
        }
        if kind == 4 && i == 0 {
            // The eight paths take a byte each.
            manifest.tree.l0[0].first.truncate(56 + past);
        }
        let checkpoint = maker.id(4);
        call += &format!(" {}:{}:{}", manifest_word(&manifest), to_hex(&key), to_hex(&checkpoint));
    }
    call
}
