//! A value of a record changed, as a rule to one of its kind: keys to their neighbours, numbers to the edges of their widths.

use super::walk::{collect_keys, count, nth};
use super::Mutator;
use calls::Value;
use Value::{Array, Bin, Bool, Int, Nil, Raw, Record};

/// Lengths at which something ends: an id's, a prefix's, a key's.
const LENGTHS: [usize; 9] = [15, 16, 17, 31, 32, 33, 63, 64, 65];

const NUMBERS: [i128; 16] = [
    0,
    1,
    2,
    127,
    128,
    255,
    256,
    65_535,
    65_536,
    u32::MAX as i128,
    1 << 32,
    i64::MAX as i128,
    1 << 63,
    u64::MAX as i128,
    -1,
    i64::MIN as i128,
];

impl Mutator {
    /// A key's neighbour in the order, or one at the edge of a limit.
    pub fn key(&mut self, key: &mut Vec<u8>) {
        let byte = self.random().pick(&[0, 1, b'a', b'b', 0xfe, 0xff]);
        match self.random().below(7) {
            0 | 1 => key.push(byte),
            2 => drop(key.pop()),
            3 | 4 => {
                let step = self.random().pick(&[1, 255]);
                if let Some(last) = key.last_mut() {
                    *last = last.wrapping_add(step);
                }
            }
            5 => key.resize(self.random().pick(&LENGTHS), byte),
            _ => {
                let at = self.random().below(key.len().max(1));
                if let Some(one) = key.get_mut(at) {
                    *one = byte;
                }
            }
        }
    }

    /// One value somewhere in the record changed, as a rule to one of its kind.
    pub fn alter(&mut self, value: &mut Value, donor: Option<&Value>) {
        let mut keys = vec![];
        collect_keys(value, &mut keys);
        let place = self.random().below(count(value));
        let given = donor.map(|donor| {
            let mut donor = donor.clone();
            let at = self.random().below(count(&donor));
            nth(&mut donor, &mut { at }).cloned().unwrap_or(Nil)
        });
        let Some(node) = nth(value, &mut { place }) else { return };
        let alike = given.filter(|given| std::mem::discriminant(given) == std::mem::discriminant(node));
        if let Some(given) = alike.filter(|_| self.random().chance(35)) {
            *node = given;
            return;
        }
        if self.random().chance(4) {
            return self.maker.twist(node, false);
        }
        match node {
            Array(values) | Record(values) => self.alter_list(values),
            Bin(bytes) => match self.random().below(8) {
                0..3 if !keys.is_empty() => *bytes = self.random().pick(&keys),
                3 if !keys.is_empty() => {
                    *bytes = self.random().pick(&keys);
                    self.key(bytes);
                }
                4 if bytes.len() != 16 => *node = Nil,
                _ => self.key(bytes),
            },
            Int(number) => match self.random().below(3) {
                0 => *number += 1,
                1 => *number -= 1,
                _ => *number = self.random().pick(&NUMBERS),
            },
            Bool(flag) => *flag = !*flag,
            Nil => {
                let key = if keys.is_empty() { vec![] } else { self.random().pick(&keys) };
                let (start, end) = (self.bound(&keys), self.bound(&keys));
                *node = self.random().pick(&[Bin(key), Bin(vec![7; 16]), Array(vec![start, end])]);
            }
            Raw(bytes) => self.maker.hurt(bytes),
        }
    }

    pub fn bound(&mut self, keys: &[Vec<u8>]) -> Value {
        if keys.is_empty() || self.random().chance(25) {
            return Nil;
        }
        let mut key = self.random().pick(keys);
        if self.random().chance(30) {
            self.key(&mut key);
        }
        Array(vec![Int((self.maker.random.bits() & 1).into()), Bin(key)])
    }

    fn alter_list(&mut self, values: &mut Vec<Value>) {
        if values.is_empty() {
            return;
        }
        let (one, other) = (self.random().below(values.len()), self.random().below(values.len()));
        match self.random().below(6) {
            0 => drop(values.remove(one)),
            1 | 2 => values.insert(other, values[one].clone()),
            3 => values.swap(one, other),
            4 => values.truncate(one),
            _ => values.reverse(),
        }
    }
}
