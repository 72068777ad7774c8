//! A word of a call changed: what a projection is asked for, an id, a key, a range, a manifest.

use super::walk::records;
use super::Mutator;
use crate::corpus::{Corpus, Form};
use calls::{decode, from_hex, to_hex, Value};
use Value::Array;

impl Mutator {
    /// A word with one of its parts changed.
    pub fn word(&mut self, word: &str, keys: &[Vec<u8>], corpus: &Corpus) -> String {
        if let Some((flag, mask)) = word.split_once(':').filter(|(flag, _)| flag.len() == 1) {
            return self.filter(flag, mask);
        }
        let mark = if word.contains(':') { ':' } else { ',' };
        let mut parts: Vec<String> = word.split(mark).map(str::to_string).collect();
        let place = self.random().below(parts.len());
        match self.random().below(10) {
            0 if mark == ',' && parts.len() > 1 => drop(parts.remove(place)),
            1 if mark == ',' && parts.len() > 1 => parts.insert(place, parts[place].clone()),
            2 if mark == ',' => {
                let other = self.random().below(parts.len());
                parts.swap(place, other);
            }
            _ => parts[place] = self.part(&parts[place].clone(), keys, corpus),
        }
        parts.join(&mark.to_string())
    }

    /// What a projection may be asked for, by its place among the words: a range, a filter, a table of ranges.
    pub fn asked(&mut self, place: usize, keys: &[Vec<u8>]) -> String {
        let mut range = || to_hex(&Array(vec![self.bound(keys), self.bound(keys)]).encode());
        match place {
            2 => format!("1:{:016x}", self.random().bits() & 7),
            3 => format!(".,{},{}", range(), range()),
            _ => range(),
        }
    }

    fn filter(&mut self, flag: &str, mask: &str) -> String {
        let mask = u64::from_str_radix(mask, 16).unwrap_or(0);
        match self.random().below(4) {
            0 => format!("{}:{mask:016x}", if flag == "0" { 1 } else { 0 }),
            1 => ".".to_string(),
            _ => format!(
                "{flag}:{:016x}",
                mask ^ 1 << self.maker.random.pick(&[0, 0, 1, 1, 2, 3, 4, 5, 8, 62, 63])
            ),
        }
    }

    fn part(&mut self, part: &str, keys: &[Vec<u8>], corpus: &Corpus) -> String {
        let form = Form::of(part);
        if let Some(other) =
            corpus.part(self.random(), form).map(str::to_string).filter(|_| self.random().chance(12))
        {
            return other;
        }
        let bytes = from_hex(part).unwrap_or_default();
        match form {
            Form::Record => self.record(bytes, corpus),
            Form::Range => self.range(bytes, keys),
            Form::Id => {
                let mut id = bytes;
                let ids: Vec<&Vec<u8>> = keys.iter().filter(|key| key.len() == 16).collect();
                if ids.is_empty() || self.random().chance(50) {
                    id[self.maker.random.pick(&[0, 7, 8, 15])] ^= 1 << self.random().below(8);
                } else {
                    id = self.random().pick(&ids).clone();
                }
                to_hex(&id)
            }
            Form::Bytes => {
                let mut key = if keys.is_empty() || self.random().chance(40) {
                    bytes
                } else {
                    self.random().pick(keys)
                };
                if self.random().chance(60) {
                    self.key(&mut key);
                }
                to_hex(&key)
            }
            // A missing range, or no list of ids.
            Form::Other => match self.random().below(2) {
                0 => self.asked(1, keys),
                _ => to_hex(&[7; 16]),
            },
        }
    }

    /// A manifest, changed as a rule so that it is one still.
    fn record(&mut self, mut bytes: Vec<u8>, corpus: &Corpus) -> String {
        let Some(mut value) = decode(&bytes) else {
            self.hurt(&mut bytes);
            return to_hex(&bytes);
        };
        match self.random().below(20) {
            0 | 1 => {
                self.hurt(&mut bytes);
                return to_hex(&bytes);
            }
            2 => return to_hex(&self.maker.oddly(&records(value), true)),
            3 => self.maker.twist(&mut value, true),
            _ => {
                for _ in 0..self.random().pick(&[1, 1, 1, 2, 4]) {
                    let donor = corpus.record(self.random());
                    self.alter(&mut value, donor.as_ref());
                }
            }
        }
        to_hex(&value.encode())
    }

    /// A range, of which one bound is another as a rule.
    fn range(&mut self, mut bytes: Vec<u8>, keys: &[Vec<u8>]) -> String {
        let value = match decode(&bytes) {
            Some(Array(mut bounds)) if bounds.len() == 2 && self.random().chance(90) => {
                bounds[self.maker.random.below(2)] = self.bound(keys);
                Array(bounds)
            }
            _ => {
                self.hurt(&mut bytes);
                return to_hex(&bytes);
            }
        };
        to_hex(&if self.random().chance(90) {
            value.encode()
        } else {
            self.maker.oddly(&records(value), true)
        })
    }

    /// Some bytes changed, or a stretch of them doubled, moved or set.
    fn hurt(&mut self, bytes: &mut Vec<u8>) {
        if bytes.len() < 2 || self.random().chance(60) {
            return self.maker.hurt(bytes);
        }
        let from = self.random().below(bytes.len());
        let to = from + self.random().below((bytes.len() - from).min(40) + 1);
        match self.random().below(4) {
            0 => {
                let stretch = bytes[from..to].to_vec();
                let at = self.random().below(bytes.len());
                bytes.splice(at..at, stretch);
            }
            1 => drop(bytes.drain(from..to)),
            2 => bytes[from] ^= 1 << self.random().below(8),
            _ => {
                let byte = self.random().pick(&[0, 0x7f, 0x80, 0xc1, 0xff]);
                bytes[from..to].fill(byte);
            }
        }
    }
}
