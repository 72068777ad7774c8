//! Manifests that are written oddly, are not lawful, or are no manifests.

use crate::manifests::{Keys, Maker};
use crate::records::{Manifest, Range, Run, Segment};
use crate::value::Value::{self, Array, Bin, Bool, Int, Nil, Raw, Record};
use crate::value::{array_head, bin_head, holds, int_in};

impl Maker {
    /// The same manifest in other widths and with further elements: it reads as before.
    pub fn oddly(&mut self, value: &Value, extras: bool) -> Vec<u8> {
        match value {
            Array(values) | Record(values) => {
                let mut values = values.clone();
                if extras && matches!(value, Record(_)) && self.random.chance(20) {
                    for _ in 0..self.random.pick(&[1, 1, 2]) {
                        values.push(self.extra());
                    }
                }
                let widths: Vec<_> =
                    [0, 2, 4].into_iter().filter(|width| holds(*width, values.len())).collect();
                let mut out = array_head(self.random.pick(&widths), values.len());
                for value in &values {
                    out.extend(self.oddly(value, extras));
                }
                out
            }
            Bin(bytes) => {
                let widths: Vec<_> =
                    [1, 2, 4].into_iter().filter(|width| holds(*width, bytes.len())).collect();
                [bin_head(self.random.pick(&widths), bytes.len()), bytes.clone()].concat()
            }
            Int(number) => {
                let mut forms = vec![value.encode()];
                for i in 0..4 {
                    let (width, full) = (1 << i, 1i128 << (8 << i));
                    if (0..full).contains(number) {
                        forms.push(int_in(0xcc + i, width, *number));
                    }
                    if (-full / 2..full / 2).contains(number) {
                        forms.push(int_in(0xd0 + i, width, *number));
                    }
                }
                self.random.pick(&forms)
            }
            _ => value.encode(),
        }
    }

    fn extra(&mut self) -> Value {
        let depth = 2 + self.random.below(12);
        self.random.pick(&[
            Nil,
            Bool(true),
            Int(5),
            Bin(b"x".to_vec()),
            Array(vec![Int(1), Array(vec![Int(2), Array(vec![])])]),
            nested(depth),
            Raw(b"\xa1x".to_vec()),
            Raw(b"\x81\x01\x02".to_vec()),
            Raw([&[0xcb][..], &[0; 8]].concat()),
            Raw(b"\xd4\0\0".to_vec()),
            Raw(b"\xc7\x02\0ab".to_vec()),
            Raw(b"\xde\0\x01\x90\x90".to_vec()),
        ])
    }

    /// Breaks one of the laws.
    pub fn break_law(&mut self, manifest: &mut Manifest) {
        let keys = Keys::default();
        let range = |start: &[u8], end: &[u8]| {
            Some(Range { start: Some((true, start.to_vec())), end: Some((true, end.to_vec())) })
        };
        match self.random.below(10) {
            // L2: a prefix twice, or out of order.
            0 => {
                let tree = self.tree(&keys, 1);
                let prefix = manifest.segments.first().map_or(vec![], |segment| segment.prefix.clone());
                manifest.segments.push(Segment { prefix: prefix.clone(), tree: tree.clone() });
                manifest.segments.push(Segment { prefix, tree });
            }
            1 => manifest.segments.reverse(),
            // L3: a prefix that another begins.
            2 => {
                let mut prefix =
                    manifest.segments.last().map_or(vec![b'a'], |segment| segment.prefix.clone());
                for _ in 0..2 {
                    prefix.push(b'z');
                    manifest.segments.push(Segment { prefix: prefix.clone(), tree: self.tree(&keys, 1) });
                }
            }
            // L4: first above last; visible and physical apart, in one way or another.
            3 => manifest.tree.l0.push(self.bare_view(b"c", Some(b"b"))),
            4 => {
                let mut view = self.bare_view(b"b", Some(b"b"));
                view.visible = Some(Range { start: None, end: Some((true, b"b".to_vec())) });
                manifest.tree.l0.push(view);
            }
            5 => {
                let mut view = self.bare_view(b"b", None);
                view.visible = range(b"c", b"c\0");
                manifest.tree.l0.push(view);
            }
            // L5: no view; first keys that do not ascend; a last key that reaches the next view.
            6 => manifest.tree.runs.push(Run { id: 1, views: vec![] }),
            7 => {
                let views = vec![self.bare_view(b"b", None), self.bare_view(b"b", None)];
                manifest.tree.runs.push(Run { id: 1, views });
            }
            8 => {
                let views = vec![self.bare_view(b"b", Some(b"c")), self.bare_view(b"c", None)];
                manifest.tree.runs.push(Run { id: 1, views });
            }
            // L1, the limits apart that limits.rs goes to.
            _ => manifest.extractor = Some(vec![0; 33]),
        }
    }

    /// One value somewhere in the record replaced, taken away, or followed by another.
    pub fn twist(&mut self, value: &mut Value, top: bool) {
        if let Array(values) | Record(values) = value {
            let deeper = if top { 97 } else { 80 };
            if !values.is_empty() && self.random.chance(deeper) {
                let i = self.random.below(values.len());
                return self.twist(&mut values[i], false);
            }
            match self.random.below(4) {
                0 if !values.is_empty() => return values.truncate(self.random.below(values.len())),
                1 => {
                    let depth = 10 + self.random.below(8);
                    let more = [Nil, Int(0), Array(vec![]), nested(depth), Raw(b"\x81\x01\x90".to_vec())];
                    return values.push(self.random.pick(&more));
                }
                _ => {}
            }
        }
        *value = self.random.pick(&[
            Nil,
            Bool(true),
            Int(0),
            Int(-1),
            Int(2),
            Int(1 << 32),
            Int(1 << 63),
            Int(u64::MAX.into()),
            Bin(vec![]),
            Bin(vec![b'x'; 15]),
            Bin(vec![0; 16]),
            Bin(vec![0; 17]),
            Array(vec![]),
            Array(vec![Int(0)]),
            Array(vec![Nil, Nil]),
            Array(vec![Array(vec![Int(2), Bin(vec![b'a'])]), Nil]),
            Array(vec![Array(vec![Int(0)]), Nil]),
            Raw(b"\xa1x".to_vec()),
            Raw(b"\x80".to_vec()),
            Raw(b"\xca\0\0\0\0".to_vec()),
            Raw(b"\xd4\0\0".to_vec()),
            Raw(b"\xc1".to_vec()),
            nested(17),
        ]);
    }

    /// Some bytes changed, cut, put in or taken out.
    pub fn hurt(&mut self, bytes: &mut Vec<u8>) {
        let at = self.random.below(bytes.len().max(1));
        let byte = match self.random.below(2) {
            0 => self.random.bits() as u8,
            _ => self
                .random
                .pick(&[0x80, 0x90, 0x91, 0xc0, 0xc1, 0xc4, 0xc6, 0xcf, 0xdb, 0xdc, 0xdd, 0xdf, 0xff]),
        };
        match self.random.below(5) {
            0 => bytes.truncate(at),
            1 => bytes.insert(at, byte),
            2 => bytes.push(byte),
            3 if !bytes.is_empty() => drop(bytes.remove(at)),
            _ if !bytes.is_empty() => bytes[at] = byte,
            _ => {}
        }
    }

    /// A call with a letter put in, taken out or changed, or a word lost or doubled. Most are malformed.
    pub fn mangle(&mut self, call: &str) -> String {
        let mut words: Vec<&str> = call.split(' ').collect();
        let mut letters: Vec<char> = call.chars().collect();
        // Half of the time at the front, where the words are short.
        let length = if self.random.chance(50) { letters.len() } else { letters.len().min(30) };
        let (at, which) = (self.random.below(length), self.random.below(words.len()));
        let letter =
            self.random.pick(&[' ', ',', ':', '.', '-', '=', '0', 'g', 'A', '\t', '\r', '\0', '+', 'é']);
        match self.random.below(6) {
            0 => letters.insert(at, letter),
            1 => letters[at] = letter,
            2 => drop(letters.remove(at)),
            3 => letters.push(letter),
            4 => {
                words.remove(which);
                return words.join(" ");
            }
            _ => {
                words.insert(which, words[which]);
                return words.join(" ");
            }
        }
        letters.into_iter().collect()
    }

    /// Bytes that no manifest was ever in.
    pub fn noise(&mut self) -> Vec<u8> {
        let length = self.random.below(24);
        let kinds = [
            0x00, 0x7f, 0x81, 0x91, 0x92, 0x9c, 0xa1, 0xc0, 0xc2, 0xc4, 0xc7, 0xcc, 0xd0, 0xd4, 0xd9, 0xdc,
            0xde, 0xff,
        ];
        let any = |maker: &mut Maker| maker.random.bits() as u8;
        (0..length)
            .map(|_| if self.random.chance(60) { self.random.pick(&kinds) } else { any(self) })
            .collect()
    }
}

/// Arrays in arrays, so many of them.
fn nested(depth: usize) -> Value {
    (1..depth).fold(Array(vec![]), |inside, _| Array(vec![inside]))
}
