//! Random keys, ranges and lawful manifests.

use crate::records::{Borrow, Bound, Bytes, Id, Manifest, Range, Run, Segment, Tree, View};
use crate::{Random, Style};

const ALPHABET: [u8; 7] = [0x00, 0x01, b'a', b'b', b'c', 0xfe, 0xff];

/// Keys one step apart, so that emptiness hangs on a single byte.
const TIGHT: [&[u8]; 9] = [b"", b"\0", b"\0\0", b"a", b"a\0", b"a\0\0", b"a\0\x01", b"a\x01", b"b"];

pub const PREFIXES: [&[u8]; 10] =
    [b"a", b"b", b"ab", b"b\0", b"c", b"\xff", b"\xff\xff", b"a\xff", b"\0", b"cc"];

pub const PATHS: [&[u8]; 6] = [b"", b"a", b"a/b", b"b", b"\xff", b"a\0"];

const NUMBERS: [u64; 13] =
    [0, 1, 5, 127, 128, 255, 256, 65_535, 65_536, u32::MAX as u64, 1 << 32, 1 << 63, u64::MAX];

const TICKS: [i64; 8] = [0, -1, -32, -33, 127, -129, i64::MIN, i64::MAX];

/// Where keys lie: most begin with the lead, some stray.
#[derive(Clone, Default)]
pub struct Keys {
    pub lead: Bytes,
    pub stray: usize,
}

impl Keys {
    pub fn under(lead: &[u8]) -> Keys {
        Keys { lead: lead.to_vec(), stray: 0 }
    }
}

/// How a manifest is made.
pub struct Shape<'a> {
    /// At most so many segments.
    pub segments: usize,
    /// At most so many L0 views and runs in a tree.
    pub size: usize,
    pub keys: Keys,
    pub prefixes: &'a [&'a [u8]],
    pub extractor: Option<Bytes>,
    /// Of a hundred borrows so many have a final checkpoint.
    pub finals: usize,
}

pub struct Maker {
    pub random: Random,
    pub style: Style,
    pub tight: bool,
}

impl Maker {
    pub fn new(random: Random, style: Style) -> Maker {
        Maker { random, style, tight: false }
    }

    /// True in so many cases of a hundred, if calls may be spoilt.
    pub fn spoil(&mut self, percent: usize) -> bool {
        self.style.spoilt && self.random.chance(percent)
    }

    pub fn id(&mut self, few: usize) -> Id {
        let mut id = [0; 16];
        id[15] = self.random.below(few) as u8;
        if self.random.chance(20) {
            id[0] = self.random.pick(&[0, 0x7f, 0x80, 0xff]);
        }
        id
    }

    fn short_key(&mut self) -> Bytes {
        if self.tight {
            return self.random.pick(&TIGHT).to_vec();
        }
        let length = self.random.pick(&[0, 1, 1, 2, 2, 2, 3]);
        (0..length).map(|_| self.random.pick(&ALPHABET)).collect()
    }

    pub fn key(&mut self, keys: &Keys) -> Bytes {
        let short = self.short_key();
        if self.random.chance(keys.stray) {
            short
        } else {
            [keys.lead.clone(), short].concat()
        }
    }

    fn bound(&mut self, keys: &Keys) -> Bound {
        if self.random.chance(20) {
            None
        } else {
            Some((self.random.chance(50), self.key(keys)))
        }
    }

    /// Any range, empty or not.
    pub fn any_range(&mut self, keys: &Keys) -> Range {
        if self.random.chance(8) {
            // Nothing lies between a key and that key with a zero byte.
            let key = self.key(keys);
            let next = [key.as_slice(), &[0]].concat();
            return Range {
                start: Some((self.random.chance(50), key)),
                end: Some((self.random.chance(50), next)),
            };
        }
        Range { start: self.bound(keys), end: self.bound(keys) }
    }

    pub fn range(&mut self, keys: &Keys) -> Range {
        loop {
            let range = self.any_range(keys);
            if range.meets(&range) {
                return range;
            }
        }
    }

    /// Gives half of the views a visible range that shares a key with the physical one.
    fn with_visible(&mut self, mut view: View, keys: &Keys) -> View {
        if self.random.chance(50) {
            return view;
        }
        for _ in 0..6 {
            let mut range = self.range(keys);
            if self.random.chance(50) {
                range.start = self.random.pick(&[None, Some((false, view.first.clone())), range.start]);
            }
            if let Some(last) = view.last.clone().filter(|_| self.random.chance(30)) {
                range.end = self.random.pick(&[None, Some((false, last.clone())), Some((true, last))]);
            }
            if let Some((excluded, _)) = range.start.as_mut().filter(|_| self.style.included) {
                *excluded = false;
            }
            if range.meets(&view.physical()) {
                view.visible = Some(range);
                break;
            }
        }
        view
    }

    pub fn bare_view(&mut self, first: &[u8], last: Option<&[u8]>) -> View {
        View {
            id: self.id(8),
            sst: self.id(8),
            first: first.to_vec(),
            last: last.map(|key| key.to_vec()),
            visible: None,
        }
    }

    pub fn view(&mut self, keys: &Keys) -> View {
        let (a, b) = (self.key(keys), self.key(keys));
        let (first, last) = if a <= b { (a, b) } else { (b, a) };
        let last = Some(last.as_slice()).filter(|_| self.random.chance(70));
        let view = self.bare_view(&first, last);
        self.with_visible(view, keys)
    }

    pub fn run(&mut self, keys: &Keys) -> Run {
        let count = self.random.pick(&[1, 1, 2, 2, 3, 4]);
        let mut firsts: Vec<Bytes> = (0..count).map(|_| self.key(keys)).collect();
        firsts.sort();
        firsts.dedup();
        let mut views = vec![];
        for (i, first) in firsts.iter().enumerate() {
            let mut lasts: Vec<Bytes> = (0..6).map(|_| self.key(keys)).collect();
            lasts.push(first.clone());
            lasts.retain(|last| last >= first && firsts.get(i + 1).is_none_or(|next| last < next));
            let last = self.random.pick(&lasts);
            let last = Some(last.as_slice()).filter(|_| self.random.chance(70));
            let view = self.bare_view(first, last);
            views.push(self.with_visible(view, keys));
        }
        Run { id: self.random.pick(&[0, 1, 2, 7, u32::MAX]), views }
    }

    pub fn tree(&mut self, keys: &Keys, size: usize) -> Tree {
        let mut tree = Tree::default();
        let (views, runs) = (self.random.below(size + 1), self.random.below(size + 1));
        tree.l0 = (0..views).map(|_| self.view(keys)).collect();
        tree.runs = (0..runs).map(|_| self.run(keys)).collect();
        // A watermark that is there names one of the views in half of the cases.
        if self.random.chance(30) {
            let own: Vec<Id> = tree.l0.iter().map(|view| view.id).collect();
            tree.view_watermark = Some(self.own_or_any(&own));
        }
        if self.random.chance(30) {
            let own: Vec<Id> = tree.l0.iter().map(|view| view.sst).collect();
            tree.sst_watermark = Some(self.own_or_any(&own));
        }
        tree
    }

    fn own_or_any(&mut self, own: &[Id]) -> Id {
        if own.is_empty() || self.random.chance(50) {
            self.id(8)
        } else {
            self.random.pick(own)
        }
    }

    /// Ascending prefixes, none of which begins another.
    pub fn prefixes(&mut self, count: usize, known: &[&[u8]]) -> Vec<Bytes> {
        let mut all: Vec<Bytes> = vec![];
        for _ in 0..count {
            let known = self.random.chance(80).then(|| self.random.pick(known).to_vec());
            let prefix = known.unwrap_or_else(|| self.short_key());
            // The empty prefix bears no other, so it is kept rare.
            if !prefix.is_empty() || self.random.chance(20) {
                all.push(prefix);
            }
        }
        all.sort();
        let mut kept: Vec<Bytes> = vec![];
        for prefix in all {
            if !kept.last().is_some_and(|last| prefix.starts_with(last)) {
                kept.push(prefix);
            }
        }
        kept
    }

    fn borrow(&mut self, ids: &[Id], finals: usize) -> Borrow {
        let count = self.random.pick(&[0, 1, 1, 2, 3]);
        let mut named = vec![];
        for _ in 0..count {
            named.push(if ids.is_empty() || self.random.chance(30) {
                self.id(8)
            } else {
                self.random.pick(ids)
            });
        }
        let last = self.id(4);
        Borrow {
            path: self.random.pick(&PATHS).to_vec(),
            source: self.id(4),
            last: Some(last).filter(|_| self.random.chance(finals)),
            ids: named,
        }
    }

    pub fn manifest(&mut self, shape: &Shape) -> Manifest {
        let mut manifest = Manifest::new();
        manifest.initialized = self.random.chance(50);
        manifest.extractor = shape.extractor.clone();
        manifest.wal = [self.random.pick(&NUMBERS), self.random.pick(&NUMBERS)];
        manifest.tick = self.random.pick(&TICKS);
        manifest.seqs = [self.random.pick(&NUMBERS), self.random.pick(&NUMBERS)];
        manifest.epochs = [self.random.pick(&NUMBERS), self.random.pick(&NUMBERS)];
        manifest.tree = self.tree(&shape.keys, shape.size);
        for prefix in self.prefixes(shape.segments, shape.prefixes) {
            let mut keys = shape.keys.clone();
            if self.random.chance(50) {
                keys.lead = [prefix.clone(), keys.lead].concat();
            }
            let tree = self.tree(&keys, shape.size);
            manifest.segments.push(Segment { prefix, tree });
        }
        let ids = manifest.ids();
        let count = self.random.pick(&[0, 0, 1, 2, 3]);
        manifest.borrows = (0..count).map(|_| self.borrow(&ids, shape.finals)).collect();
        if let Some(first) = manifest.borrows.first().cloned().filter(|_| self.random.chance(30)) {
            // One more of the same path and ids, in another order: union groups these.
            let mut again = Borrow { source: self.id(4), last: Some(self.id(4)), ..first };
            self.random.shuffle(&mut again.ids);
            manifest.borrows.push(again);
        }
        manifest
    }

    /// A manifest for an operation that takes any.
    pub fn any_manifest(&mut self) -> Manifest {
        let shape = Shape {
            segments: self.random.pick(&[0, 0, 1, 2, 3, 4, 6, 8]),
            size: self.random.pick(&[0, 1, 1, 2, 3]),
            keys: Keys::default(),
            prefixes: &PREFIXES,
            extractor: self.random.pick(&[None, None, Some(vec![]), Some(b"x".to_vec())]),
            finals: 95,
        };
        self.manifest(&shape)
    }
}
