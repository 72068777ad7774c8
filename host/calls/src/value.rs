//! MessagePack values: enough to write records, to read them back for shrinking, and to spoil them.

#[derive(Clone, Debug, PartialEq)]
pub enum Value {
    Nil,
    Bool(bool),
    Int(i128),
    Bin(Vec<u8>),
    /// A list.
    Array(Vec<Value>),
    /// A record, which may have further elements; an array like a list once it is written.
    Record(Vec<Value>),
    /// Bytes that stand in the result as they are: other kinds of value, or no value at all.
    Raw(Vec<u8>),
}

use Value::{Array, Bin, Bool, Int, Nil, Raw, Record};

impl Value {
    /// In the shortest form.
    pub fn encode(&self) -> Vec<u8> {
        match self {
            Nil => vec![0xc0],
            Bool(flag) => vec![if *flag { 0xc3 } else { 0xc2 }],
            Int(number) => int(*number),
            Bin(bytes) => {
                let width = [1, 2, 4].into_iter().find(|width| holds(*width, bytes.len())).expect("short");
                [bin_head(width, bytes.len()), bytes.clone()].concat()
            }
            Array(values) | Record(values) => {
                let width = [0, 2, 4].into_iter().find(|width| holds(*width, values.len())).expect("short");
                let mut out = array_head(width, values.len());
                values.iter().for_each(|value| out.extend(value.encode()));
                out
            }
            Raw(bytes) => bytes.clone(),
        }
    }
}

/// Whether a count fits a width in bytes; width 0 is the fix form.
pub fn holds(width: usize, count: usize) -> bool {
    if width == 0 {
        count < 16
    } else {
        (count as u64) < 1 << (8 * width)
    }
}

pub fn bin_head(width: usize, count: usize) -> Vec<u8> {
    let first = 0xc4 + width.trailing_zeros() as u8;
    [&[first], &count.to_be_bytes()[8 - width..]].concat()
}

pub fn array_head(width: usize, count: usize) -> Vec<u8> {
    match width {
        0 => vec![0x90 + count as u8],
        2 => [&[0xdc], &count.to_be_bytes()[6..]].concat(),
        _ => [&[0xdd], &count.to_be_bytes()[4..]].concat(),
    }
}

pub fn int_in(first: u8, width: usize, number: i128) -> Vec<u8> {
    [&[first], &number.to_be_bytes()[16 - width..]].concat()
}

fn int(number: i128) -> Vec<u8> {
    match number {
        -32..=127 => vec![number as u8],
        128..=0xff => int_in(0xcc, 1, number),
        0x100..=0xffff => int_in(0xcd, 2, number),
        0x1_0000..=0xffff_ffff => int_in(0xce, 4, number),
        0x1_0000_0000.. => int_in(0xcf, 8, number),
        -0x80..=-33 => int_in(0xd0, 1, number),
        -0x8000..=-0x81 => int_in(0xd1, 2, number),
        -0x8000_0000..=-0x8001 => int_in(0xd2, 4, number),
        _ => int_in(0xd3, 8, number),
    }
}

/// The value that the bytes hold, if they hold one whole; what no record has is left raw.
pub fn decode(bytes: &[u8]) -> Option<Value> {
    let mut rest = bytes;
    let value = value(&mut rest, 0)?;
    rest.is_empty().then_some(value)
}

fn take<'a>(rest: &mut &'a [u8], count: usize) -> Option<&'a [u8]> {
    let (taken, left) = rest.split_at_checked(count)?;
    *rest = left;
    Some(taken)
}

fn number(rest: &mut &[u8], width: usize) -> Option<i128> {
    Some(take(rest, width)?.iter().fold(0, |sum, byte| sum << 8 | i128::from(*byte)))
}

fn value(rest: &mut &[u8], depth: usize) -> Option<Value> {
    let whole = *rest;
    let first = take(rest, 1)?[0];
    let raw = |rest: &[u8]| Raw(whole[..whole.len() - rest.len()].to_vec());
    let values = |rest: &mut &[u8], count: i128| -> Option<Vec<Value>> {
        // Deeper than any reader goes: no need to follow.
        if depth > 40 {
            return None;
        }
        (0..count).map(|_| value(rest, depth + 1)).collect()
    };
    let skipped = match first {
        0x00..=0x7f => return Some(Int(first.into())),
        0xe0..=0xff => return Some(Int(i128::from(first) - 256)),
        0xc0 => return Some(Nil),
        0xc2 | 0xc3 => return Some(Bool(first == 0xc3)),
        0x90..=0x9f => return Some(Array(values(rest, i128::from(first - 0x90))?)),
        0xdc | 0xdd => {
            let count = number(rest, 2 << (first - 0xdc))?;
            return Some(Array(values(rest, count)?));
        }
        0xc4..=0xc6 => {
            let length = number(rest, 1 << (first - 0xc4))?;
            return Some(Bin(take(rest, length as usize)?.to_vec()));
        }
        0xcc..=0xcf => return Some(Int(number(rest, 1 << (first - 0xcc))?)),
        0xd0..=0xd3 => {
            let width = 1 << (first - 0xd0);
            let unsigned = number(rest, width)?;
            let full = 1i128 << (8 * width);
            return Some(Int(if unsigned < full / 2 { unsigned } else { unsigned - full }));
        }
        0x80..=0x8f => {
            values(rest, 2 * i128::from(first - 0x80))?;
            0
        }
        0xde | 0xdf => {
            let count = number(rest, 2 << (first - 0xde))?;
            values(rest, 2 * count)?;
            0
        }
        0xa0..=0xbf => usize::from(first - 0xa0),
        0xc7..=0xc9 => 1 + number(rest, 1 << (first - 0xc7))? as usize,
        0xca | 0xcb => 4 << (first - 0xca),
        0xd4..=0xd8 => 1 + (1 << (first - 0xd4)),
        0xd9..=0xdb => number(rest, 1 << (first - 0xd9))? as usize,
        0xc1 => return None,
    };
    take(rest, skipped)?;
    Some(raw(rest))
}

pub fn to_hex(bytes: &[u8]) -> String {
    if bytes.is_empty() {
        return "-".to_string();
    }
    let mut hex = String::with_capacity(2 * bytes.len());
    for byte in bytes {
        hex.extend([byte >> 4, byte & 15].map(|digit| char::from_digit(digit.into(), 16).expect("a digit")));
    }
    hex
}

pub fn from_hex(word: &str) -> Option<Vec<u8>> {
    if word == "-" {
        return Some(vec![]);
    }
    let digits: Option<Vec<u32>> = word.chars().map(|c| c.to_digit(16)).collect();
    let digits = digits.filter(|digits| !digits.is_empty() && digits.len() % 2 == 0)?;
    Some(digits.chunks(2).map(|pair| (pair[0] << 4 | pair[1]) as u8).collect())
}
