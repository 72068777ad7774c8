//! A history of insertions: it begins with a lawful manifest, and each result is the manifest of the
//! next call.

use crate::limits;
use crate::manifests::{Maker, PREFIXES};
use crate::operations::manifest_word;
use crate::records::{Bytes, Manifest};
use crate::value::to_hex;
use crate::{Random, Style};

pub struct History {
    maker: Maker,
    /// The manifest so far, as a word.
    manifest: String,
    /// Prefixes that were held at the start or tried since.
    tried: Vec<Bytes>,
}

impl History {
    /// The history of this number under a seed.
    pub fn new(seed: u64, number: usize) -> History {
        let random = Random::new(seed.wrapping_mul(0x1_0001).wrapping_add(number as u64) << 8 | 0x48);
        let mut maker = Maker::new(random, Style::default());
        let manifest = match maker.random.below(5) {
            0 => Manifest::new(),
            1 => nearly_full(&mut maker),
            _ => maker.any_manifest(),
        };
        let tried = manifest.segments.iter().map(|segment| segment.prefix.clone()).collect();
        History { maker, manifest: manifest_word(&manifest), tried }
    }

    /// The next call.
    pub fn call(&mut self) -> String {
        let prefix = self.prefix();
        self.tried.push(prefix.clone());
        format!("insert {} {}", self.manifest, to_hex(&prefix))
    }

    /// Goes on with the manifest of this answer, if it has one.
    pub fn answered(&mut self, answer: &str) {
        if let ["ok", "entered", _, manifest] = answer.split(' ').collect::<Vec<_>>()[..] {
            self.manifest = manifest.to_string();
        }
    }

    fn prefix(&mut self) -> Bytes {
        let random = &mut self.maker.random;
        let mut prefix = match random.below(10) {
            0..4 if !self.tried.is_empty() => random.pick(&self.tried),
            4 => random.pick(&PREFIXES).to_vec(),
            5 => vec![random.pick(b"ab\0\xff"); random.pick(&[1, 2, 31, 32, 33])],
            _ => (0..random.pick(&[1, 2, 2, 3])).map(|_| random.pick(b"abcdefgh\0\xff")).collect(),
        };
        // Beside it, beyond it, or before it.
        match random.below(10) {
            0 => prefix.push(random.pick(b"a\0\xff")),
            1 => drop(prefix.pop()),
            2..5 => {
                if let Some(last) = prefix.last_mut() {
                    *last = last.wrapping_add(random.pick(&[1, 255]));
                }
            }
            _ => {}
        }
        prefix
    }
}

/// Few places of L1's 64 segments are left, or few of its 8,192 bytes.
fn nearly_full(maker: &mut Maker) -> Manifest {
    let mut manifest = Manifest::new();
    if maker.random.chance(50) {
        manifest.segments = limits::segments(maker.random.pick(&[50, 60, 63, 64]));
    } else {
        let filled = maker.random.pick(&[8_100, 8_150, 8_192]);
        manifest.tree.l0 = limits::filling(maker, filled);
    }
    manifest
}
