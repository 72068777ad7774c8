//! MessagePack parsed: any value, with its place, or refusal 18.

use crate::{Outcome, Refused};

const DEPTH: usize = 16;

pub struct Value {
    pub at: usize,
    pub kind: Kind,
}

pub enum Kind {
    Nil,
    Bool(bool),
    Int(i128),
    Bin(Vec<u8>),
    Array(Vec<Value>),
    /// Well-formed, but in no record: str, ext, float, map.
    Other,
}

/// The one value that the bytes hold, or refusal 18.
pub fn parse(bytes: &[u8]) -> Outcome<Value> {
    let mut parser = Parser { bytes, at: 0 };
    let value = parser.value(0)?;
    if parser.at == bytes.len() {
        Ok(value)
    } else {
        Err(Refused(18, parser.at))
    }
}

struct Parser<'a> {
    bytes: &'a [u8],
    at: usize,
}

impl Parser<'_> {
    /// The next `count` bytes of the value that starts at `start`.
    fn take(&mut self, count: usize, start: usize) -> Outcome<&[u8]> {
        let end = self.at + count;
        if end > self.bytes.len() {
            return Err(Refused(18, start));
        }
        let taken = &self.bytes[self.at..end];
        self.at = end;
        Ok(taken)
    }

    fn unsigned(&mut self, width: usize, start: usize) -> Outcome<u64> {
        Ok(self.take(width, start)?.iter().fold(0, |sum, byte| sum << 8 | u64::from(*byte)))
    }

    fn signed(&mut self, width: usize, start: usize) -> Outcome<i128> {
        let value = i128::from(self.unsigned(width, start)?);
        let half = 1i128 << (8 * width - 1);
        Ok(if value < half { value } else { value - 2 * half })
    }

    /// A length of `width` bytes and after it `more` bytes beyond that length.
    fn skip(&mut self, width: usize, more: usize, start: usize) -> Outcome<Kind> {
        let length = self.unsigned(width, start)? as usize;
        self.take(length + more, start)?;
        Ok(Kind::Other)
    }

    fn bin(&mut self, width: usize, start: usize) -> Outcome<Kind> {
        let length = self.unsigned(width, start)? as usize;
        Ok(Kind::Bin(self.take(length, start)?.to_vec()))
    }

    fn values(&mut self, count: u64, outside: usize) -> Outcome<Vec<Value>> {
        // The count may be far above the bytes left, so nothing is set aside for it.
        let mut values = vec![];
        for _ in 0..count {
            values.push(self.value(outside + 1)?);
        }
        Ok(values)
    }

    fn array(&mut self, count: u64, outside: usize) -> Outcome<Kind> {
        Ok(Kind::Array(self.values(count, outside)?))
    }

    fn map(&mut self, count: u64, outside: usize) -> Outcome<Kind> {
        self.values(2 * count, outside)?;
        Ok(Kind::Other)
    }

    /// A value that has `outside` arrays and maps around it.
    fn value(&mut self, outside: usize) -> Outcome<Value> {
        let start = self.at;
        let first = self.take(1, start)?[0];
        let holds_values = matches!(first, 0x80..=0x9f | 0xdc..=0xdf);
        if holds_values && outside == DEPTH {
            return Err(Refused(18, start));
        }
        let kind = match first {
            0x00..=0x7f => Kind::Int(first.into()),
            0x80..=0x8f => self.map(u64::from(first - 0x80), outside)?,
            0x90..=0x9f => self.array(u64::from(first - 0x90), outside)?,
            0xa0..=0xbf => self.skip(0, usize::from(first - 0xa0), start)?,
            0xc0 => Kind::Nil,
            0xc1 => return Err(Refused(18, start)),
            0xc2 => Kind::Bool(false),
            0xc3 => Kind::Bool(true),
            0xc4 => self.bin(1, start)?,
            0xc5 => self.bin(2, start)?,
            0xc6 => self.bin(4, start)?,
            0xc7 => self.skip(1, 1, start)?,
            0xc8 => self.skip(2, 1, start)?,
            0xc9 => self.skip(4, 1, start)?,
            0xca => self.skip(0, 4, start)?,
            0xcb => self.skip(0, 8, start)?,
            0xcc => Kind::Int(self.unsigned(1, start)?.into()),
            0xcd => Kind::Int(self.unsigned(2, start)?.into()),
            0xce => Kind::Int(self.unsigned(4, start)?.into()),
            0xcf => Kind::Int(self.unsigned(8, start)?.into()),
            0xd0 => Kind::Int(self.signed(1, start)?),
            0xd1 => Kind::Int(self.signed(2, start)?),
            0xd2 => Kind::Int(self.signed(4, start)?),
            0xd3 => Kind::Int(self.signed(8, start)?),
            0xd4 => self.skip(0, 2, start)?,
            0xd5 => self.skip(0, 3, start)?,
            0xd6 => self.skip(0, 5, start)?,
            0xd7 => self.skip(0, 9, start)?,
            0xd8 => self.skip(0, 17, start)?,
            0xd9 => self.skip(1, 0, start)?,
            0xda => self.skip(2, 0, start)?,
            0xdb => self.skip(4, 0, start)?,
            0xdc => {
                let count = self.unsigned(2, start)?;
                self.array(count, outside)?
            }
            0xdd => {
                let count = self.unsigned(4, start)?;
                self.array(count, outside)?
            }
            0xde => {
                let count = self.unsigned(2, start)?;
                self.map(count, outside)?
            }
            0xdf => {
                let count = self.unsigned(4, start)?;
                self.map(count, outside)?
            }
            0xe0..=0xff => Kind::Int(i128::from(first) - 256),
        };
        Ok(Value { at: start, kind })
    }
}
