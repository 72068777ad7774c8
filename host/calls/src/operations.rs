//! One random call of each operation.

use crate::limits;
use crate::manifests::{Keys, Maker, Shape, PATHS, PREFIXES};
use crate::records::{Borrow, Bytes, Id, Manifest, Range, Segment, Tree};
use crate::value::to_hex;

pub const OPERATIONS: [&str; 10] = [
    "read",
    "lookup",
    "insert",
    "merge_from_writer",
    "merge_from_compactor",
    "select",
    "project",
    "owned",
    "clone",
    "union",
];

pub fn list(words: Vec<String>) -> String {
    if words.is_empty() {
        ".".to_string()
    } else {
        words.join(",")
    }
}

pub fn ids(ids: &[Id]) -> String {
    list(ids.iter().map(|id| to_hex(id)).collect())
}

pub fn range_word(range: &Range) -> String {
    to_hex(&range.value().encode())
}

pub fn manifest_word(manifest: &Manifest) -> String {
    to_hex(&manifest.value().encode())
}

impl Maker {
    pub fn call(&mut self, operation: &str) -> String {
        self.tight = self.random.chance(20);
        let mut call = match operation {
            _ if self.spoil(2) => limits::call(self, operation),
            "read" => format!("read {}", self.input()),
            "lookup" | "insert" => self.lookup_or_insert(operation),
            "merge_from_writer" | "merge_from_compactor" => self.merge(operation),
            "select" => self.select(),
            "project" => self.project(),
            "owned" => {
                let manifest = self.any_manifest();
                format!("owned {}", self.word(manifest))
            }
            "clone" => self.clone_call(),
            "union" => self.union(),
            other => panic!("no operation is called {other}"),
        };
        if self.spoil(3) {
            call = format!("{} {call}", self.room());
        }
        if self.spoil(1) {
            self.mangle(&call)
        } else {
            call
        }
    }

    /// A manifest's word, spoilt now and then.
    pub fn word(&mut self, mut manifest: Manifest) -> String {
        if self.style.spoilt && self.random.below(1000) < 7 {
            return to_hex(&limits::long_input(self));
        }
        if self.spoil(3) {
            self.break_law(&mut manifest);
        }
        let value = manifest.value();
        if self.spoil(10) {
            return to_hex(&self.oddly(&value, true));
        }
        if self.spoil(1) {
            let mut value = value;
            self.twist(&mut value, true);
            return to_hex(&value.encode());
        }
        let mut bytes = value.encode();
        if self.spoil(1) {
            self.hurt(&mut bytes);
        }
        to_hex(&bytes)
    }

    /// What `read` is given: it has no arguments to go wrong, so its bytes do so more often.
    fn input(&mut self) -> String {
        let manifest = self.any_manifest();
        let mut value = manifest.value();
        match self.random.below(100) {
            0..8 if self.style.spoilt => {
                self.twist(&mut value, true);
                to_hex(&self.oddly(&value, false))
            }
            8..16 if self.style.spoilt => {
                let mut bytes = self.oddly(&value, true);
                self.hurt(&mut bytes);
                to_hex(&bytes)
            }
            16..18 if self.style.spoilt => to_hex(&self.noise()),
            _ => self.word(manifest),
        }
    }

    fn room(&mut self) -> String {
        let ends = [9, 30, 12, 6, 12, 120];
        let places = ends.map(|end| match self.random.below(3) {
            0 => self.random.below(end),
            1 => end,
            _ => 10_000,
        });
        format!("room={}", places.map(|place| place.to_string()).join(","))
    }

    fn lookup_or_insert(&mut self, operation: &str) -> String {
        let manifest = self.any_manifest();
        let prefix = match self.random.below(100) {
            0..5 => vec![],
            5..35 if !manifest.segments.is_empty() => self.random.pick(&manifest.segments).prefix,
            35..45 if !manifest.segments.is_empty() => {
                let mut prefix = self.random.pick(&manifest.segments).prefix;
                if self.random.chance(50) {
                    prefix.push(self.random.pick(&[0, b'a', 0xff]));
                } else {
                    prefix.pop();
                }
                prefix
            }
            45..70 => self.random.pick(&PREFIXES).to_vec(),
            _ => self.key(&Keys::default()),
        };
        let prefix = if self.spoil(3) { vec![b'a'; self.random.pick(&[31, 32, 33, 34])] } else { prefix };
        format!("{operation} {} {}", self.word(manifest), to_hex(&prefix))
    }

    fn merge(&mut self, operation: &str) -> String {
        // Few prefixes that do not nest, so that most merges go through.
        let flat: [&[u8]; 4] = [b"b", b"c", b"\xff", b"\0"];
        let prefixes: &[&[u8]] = if self.random.chance(70) { &flat } else { &PREFIXES };
        let mut sides = vec![];
        for _ in 0..2 {
            let shape = Shape {
                segments: self.random.pick(&[0, 1, 2, 3, 4, 6]),
                size: self.random.pick(&[0, 1, 1, 2]),
                keys: Keys::default(),
                prefixes,
                extractor: None,
                finals: 100,
            };
            sides.push(self.manifest(&shape));
        }
        let mut compactor = sides.remove(1);
        let writer = sides.remove(0);
        // The compactor's watermarks name the writer's views, and its data often lies under the
        // writer's prefixes.
        for segment in &mut compactor.segments {
            let same = writer.segments.iter().find(|other| other.prefix == segment.prefix);
            match same {
                Some(other) if !other.tree.l0.is_empty() => {
                    if self.random.chance(40) {
                        segment.tree.view_watermark = Some(self.random.pick(&other.tree.l0).id);
                    }
                    if self.random.chance(40) {
                        segment.tree.sst_watermark = Some(self.random.pick(&other.tree.l0).sst);
                    }
                }
                None if operation == "merge_from_writer" && self.random.chance(60) => {
                    segment.tree.l0.clear();
                    segment.tree.runs.clear();
                }
                _ => {}
            }
        }
        format!("{operation} {} {}", self.word(writer), self.word(compactor))
    }

    /// A range argument, now and then empty or over its limit.
    fn argument(&mut self, keys: &Keys) -> Range {
        let mut range = if self.spoil(6) { self.any_range(keys) } else { self.range(keys) };
        if self.spoil(2) {
            range.end = Some((self.random.chance(50), vec![0xff; self.random.pick(&[64, 65])]));
        }
        range
    }

    /// Keys near a segment of the manifest, or anywhere.
    fn near(&mut self, manifest: &Manifest) -> Keys {
        if manifest.segments.is_empty() || self.random.chance(60) {
            return Keys::default();
        }
        Keys { lead: self.random.pick(&manifest.segments).prefix, stray: 30 }
    }

    fn select(&mut self) -> String {
        let manifest = self.any_manifest();
        let keys = self.near(&manifest);
        let range = self.argument(&keys);
        format!("select {} {}", self.word(manifest), range_word(&range))
    }

    fn project(&mut self) -> String {
        let manifest = self.any_manifest();
        let count = manifest.segments.len();
        let keys = self.near(&manifest);
        let global = if self.random.chance(60) { range_word(&self.argument(&keys)) } else { ".".to_string() };
        let filter = if self.random.chance(40) {
            let mut mask = self.random.bits() & ((1u128 << count) - 1) as u64;
            if self.spoil(5) {
                mask |= 1 << self.random.below(64);
            }
            format!("{}:{mask:016x}", self.random.below(2))
        } else {
            ".".to_string()
        };
        let own = if self.random.chance(50) { self.own_table(&manifest) } else { ".".to_string() };
        format!("project {} {global} {filter} {own}", self.word(manifest))
    }

    fn own_table(&mut self, manifest: &Manifest) -> String {
        let prefixes = manifest.segments.iter().map(|segment| segment.prefix.clone());
        let trees: Vec<Bytes> = std::iter::once(vec![]).chain(prefixes).collect();
        // Too short a table, one too long, or just right.
        let entries = (trees.len() + self.random.pick(&[0, 0, 0, 1, 2]))
            .saturating_sub(self.random.pick(&[0, 0, 1, 2]));
        let wild = self.random.chance(10);
        let mut words = vec![];
        for place in 0..entries {
            let prefix = trees.get(place).cloned().unwrap_or_default();
            let mut range =
                if wild { self.any_range(&Keys::default()) } else { self.range(&Keys::under(&prefix)) };
            if !wild && !prefix.is_empty() && self.random.chance(15) {
                // The prefix's own end, which may be excluded but not included.
                let mut end = prefix.clone();
                let last = end.pop().unwrap_or(0);
                end.push(last.saturating_add(1));
                range.end = Some((self.random.chance(90), end));
            }
            if self.spoil(1) {
                range.start = Some((false, [prefix.as_slice(), &[0; 62]].concat()));
            }
            words.push(if self.random.chance(35) { ".".to_string() } else { range_word(&range) });
        }
        // A table of one missing entry has no word of its own.
        if words.is_empty() || words == ["."] {
            ".,.".to_string()
        } else {
            words.join(",")
        }
    }

    pub fn fresh(&mut self, count: usize) -> String {
        let mut fresh = vec![];
        for i in 0..count {
            let mut id = self.id(4);
            id[8..10].copy_from_slice(&[0xf0, i as u8]);
            fresh.push(id);
        }
        ids(&fresh)
    }

    fn clone_call(&mut self) -> String {
        let manifest = self.any_manifest();
        let needed = manifest.borrows.len() + 1;
        let count = if self.spoil(8) { self.random.below(needed) } else { needed + self.random.below(2) };
        let long = self.random.pick(&[63, 64, 65]);
        let path = if self.spoil(5) { vec![b'p'; long] } else { self.random.pick(&PATHS).to_vec() };
        let (checkpoint, fresh) = (self.id(4), self.fresh(count));
        format!("clone {} {} {} {fresh}", self.word(manifest), to_hex(&path), to_hex(&checkpoint))
    }

    fn union(&mut self) -> String {
        let count = if self.spoil(1) { 9 } else { self.random.pick(&[0, 1, 2, 2, 2, 3, 3, 4, 5, 8]) };
        let name = if self.random.chance(60) { Some(b"x".to_vec()) } else { None };
        let quarrel = self.random.chance(4);
        // Each source keeps to its own zone of the keys, or all go anywhere.
        let zoned = self.random.chance(88);
        let mut zones: Vec<u8> = (0..count as u8).collect();
        self.random.shuffle(&mut zones);
        let nesting: [&[u8]; 4] = [b"a", b"b", b"ab", b"\xff"];
        let prefixes: &[&[u8]] = if self.random.chance(10) { &nesting } else { &[b"c", b"d", b"\xfe"] };
        let mut sources: Vec<Manifest> = vec![];
        for zone in zones {
            let mut keys = Keys::default();
            if zoned {
                keys = Keys { lead: vec![0x10 + 0x10 * zone], stray: 1 };
            }
            let names = if quarrel { vec![None, Some(vec![]), name.clone()] } else { vec![name.clone()] };
            let extractor = self.random.pick(&names);
            let mut manifest = self.source(&keys, prefixes, extractor);
            if let Some(before) = sources.last().filter(|_| self.random.chance(25)) {
                // The same borrows under other checkpoints.
                let again = |maker: &mut Maker, borrow: &Borrow| Borrow {
                    source: maker.id(4),
                    last: Some(maker.id(4)),
                    ..borrow.clone()
                };
                manifest.borrows = before.borrows.iter().map(|borrow| again(self, borrow)).collect();
            }
            sources.push(manifest);
        }
        if sources.len() > 1 && self.random.chance(20) {
            // What one source owns, another borrows under a path that may be the first one's.
            let owned = sources[0].ids();
            let (source, last) = (self.id(4), Some(self.id(4)));
            sources[1].borrows.push(Borrow { path: b"a".to_vec(), source, last, ids: owned });
        }
        if name.is_some() && self.random.chance(20) {
            // Equal starts: unsegmented views lie below all others, and are not judged.
            let last = self.random.pick(&[None, Some(&b"\x01"[..])]);
            let low = self.bare_view(b"", last);
            for manifest in &mut sources {
                if self.random.chance(70) {
                    manifest.tree = Tree { l0: vec![low.clone()], ..Tree::default() };
                }
            }
        }
        if self.random.chance(12) {
            self.touch(&mut sources, name.is_some());
        }
        let paths: &[&[u8]] = if self.random.chance(50) { &PATHS } else { &PATHS[1..3] };
        let needed: usize = sources.iter().map(|manifest| manifest.borrows.len() + 1).sum();
        let lent = if self.spoil(4) { self.random.below(needed + 1) } else { needed };
        let mut call = format!("union {}", self.fresh(lent));
        for manifest in sources {
            let long = self.random.pick(&[64, 65]);
            let path = if self.spoil(1) { vec![b'p'; long] } else { self.random.pick(paths).to_vec() };
            let checkpoint = self.id(4);
            call += &format!(" {}:{}:{}", self.source_word(manifest), to_hex(&path), to_hex(&checkpoint));
        }
        call
    }

    /// Each source ends at the key at which another starts, so that the kinds of two bounds decide whether they overlap.
    fn touch(&mut self, sources: &mut [Manifest], segmented: bool) {
        let mut places: Vec<u8> = (0..sources.len() as u8).collect();
        self.random.shuffle(&mut places);
        let lead: &[u8] = if segmented { b"c" } else { b"" };
        let cut = |place: u8| [lead, &[0x10 + 0x10 * place]].concat();
        for (manifest, place) in sources.iter_mut().zip(places) {
            let mut view = self.bare_view(&cut(place), None);
            let past = !self.style.included && self.random.chance(30);
            let (start, end) = ((past, cut(place)), (self.random.chance(90), cut(place + 1)));
            view.visible = Some(Range { start: Some(start), end: Some(end) });
            let tree = Tree { l0: vec![view], ..Tree::default() };
            if segmented {
                manifest.segments = vec![Segment { prefix: lead.to_vec(), tree }];
            } else {
                manifest.tree = tree;
            }
        }
    }

    /// A union has several manifests, so each of them is spoilt less often.
    fn source_word(&mut self, manifest: Manifest) -> String {
        if self.random.chance(35) {
            self.word(manifest)
        } else {
            manifest_word(&manifest)
        }
    }

    fn source(&mut self, keys: &Keys, prefixes: &[&[u8]], extractor: Option<Bytes>) -> Manifest {
        let segmented = extractor.is_some();
        let size = self.random.pick(&[0, 1, 1, 2]);
        let shape = Shape { segments: 0, size, keys: keys.clone(), prefixes, extractor, finals: 99 };
        let mut manifest = self.manifest(&shape);
        let stray = self.random.chance(3);
        if segmented || stray {
            if segmented && self.random.chance(70) {
                manifest.tree = Tree::default();
            }
            let count = self.random.pick(&[0, 1, 2, 3]);
            for prefix in self.prefixes(count, prefixes) {
                let lead = [prefix.clone(), keys.lead.clone()].concat();
                let size = self.random.pick(&[0, 1, 1, 2]);
                let tree = self.tree(&Keys { lead, stray: keys.stray }, size);
                manifest.segments.push(Segment { prefix, tree });
            }
        }
        manifest
    }
}
