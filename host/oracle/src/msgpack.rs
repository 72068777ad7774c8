//! A small MessagePack reader and writer, for the oracle alone. It reads every width; what is not
//! well-formed, has bytes left over or is nested above 16 gives `None`.

pub enum Value {
    Nil,
    Bool(bool),
    Int(i128),
    Bin(Vec<u8>),
    Array(Vec<Value>),
    /// A str, ext, float or map, which no record holds.
    Other,
}

const DEEPEST: usize = 16;

pub fn read(bytes: &[u8]) -> Option<Value> {
    let mut rest = bytes;
    let value = value(&mut rest, 1)?;
    rest.is_empty().then_some(value)
}

fn take<'a>(rest: &mut &'a [u8], count: u64) -> Option<&'a [u8]> {
    let (taken, left) = rest.split_at_checked(usize::try_from(count).ok()?)?;
    *rest = left;
    Some(taken)
}

fn big_endian(rest: &mut &[u8], width: u64) -> Option<u64> {
    Some(take(rest, width)?.iter().fold(0, |number, byte| number << 8 | u64::from(*byte)))
}

fn skip(rest: &mut &[u8], count: u64) -> Option<Value> {
    take(rest, count).map(|_| Value::Other)
}

fn array(rest: &mut &[u8], count: u64, depth: usize) -> Option<Value> {
    if depth > DEEPEST {
        return None;
    }
    let mut values = vec![];
    for _ in 0..count {
        values.push(value(rest, depth + 1)?);
    }
    Some(Value::Array(values))
}

fn map(rest: &mut &[u8], count: u64, depth: usize) -> Option<Value> {
    array(rest, 2 * count, depth).map(|_| Value::Other)
}

fn value(rest: &mut &[u8], depth: usize) -> Option<Value> {
    let first = take(rest, 1)?[0];
    Some(match first {
        0x00..=0x7f => Value::Int(i128::from(first)),
        0x80..=0x8f => map(rest, u64::from(first & 15), depth)?,
        0x90..=0x9f => array(rest, u64::from(first & 15), depth)?,
        0xa0..=0xbf => skip(rest, u64::from(first & 31))?,
        0xc0 => Value::Nil,
        0xc1 => return None,
        0xc2 | 0xc3 => Value::Bool(first == 0xc3),
        0xc4..=0xc6 => {
            let length = big_endian(rest, 1 << (first - 0xc4))?;
            Value::Bin(take(rest, length)?.to_vec())
        }
        0xc7..=0xc9 => {
            let length = big_endian(rest, 1 << (first - 0xc7))?;
            skip(rest, length + 1)?
        }
        0xca | 0xcb => skip(rest, 4 << (first - 0xca))?,
        0xcc..=0xcf => Value::Int(i128::from(big_endian(rest, 1 << (first - 0xcc))?)),
        0xd0 => Value::Int(i128::from(big_endian(rest, 1)? as i8)),
        0xd1 => Value::Int(i128::from(big_endian(rest, 2)? as i16)),
        0xd2 => Value::Int(i128::from(big_endian(rest, 4)? as i32)),
        0xd3 => Value::Int(i128::from(big_endian(rest, 8)? as i64)),
        0xd4..=0xd8 => skip(rest, 1 + (1 << (first - 0xd4)))?,
        0xd9..=0xdb => {
            let length = big_endian(rest, 1 << (first - 0xd9))?;
            skip(rest, length)?
        }
        0xdc | 0xdd => {
            let count = big_endian(rest, 2 << (first - 0xdc))?;
            array(rest, count, depth)?
        }
        0xde | 0xdf => {
            let count = big_endian(rest, 2 << (first - 0xde))?;
            map(rest, count, depth)?
        }
        0xe0..=0xff => Value::Int(i128::from(first as i8)),
    })
}

/// The shortest form, non-negative numbers unsigned.
pub fn write(value: &Value) -> Vec<u8> {
    let mut out = vec![];
    write_to(&mut out, value);
    out
}

fn write_to(out: &mut Vec<u8>, value: &Value) {
    match value {
        Value::Nil => out.push(0xc0),
        Value::Bool(flag) => out.push(0xc2 + u8::from(*flag)),
        Value::Int(number) => write_int(out, *number),
        Value::Bin(bytes) => {
            head(out, bytes.len(), &[(0xff, 0xc4, 1), (0xffff, 0xc5, 2), (u32::MAX, 0xc6, 4)]);
            out.extend(bytes);
        }
        Value::Array(values) => {
            match values.len() {
                few @ 0..=15 => out.push(0x90 + few as u8),
                many => head(out, many, &[(0xffff, 0xdc, 2), (u32::MAX, 0xdd, 4)]),
            }
            values.iter().for_each(|value| write_to(out, value));
        }
        Value::Other => unreachable!("no record holds it"),
    }
}

/// The first form that holds the length: its greatest length, first byte and width.
fn head(out: &mut Vec<u8>, length: usize, forms: &[(u32, u8, usize)]) {
    let holds = |form: &&(u32, u8, usize)| length <= form.0 as usize;
    let (_, first, width) = forms.iter().find(holds).expect("a result is short");
    out.push(*first);
    out.extend(&length.to_be_bytes()[8 - width..]);
}

fn write_int(out: &mut Vec<u8>, number: i128) {
    // Each form: its least and greatest number, first byte and width.
    let forms: [(i128, i128, u8, usize); 8] = [
        (0, 0xff, 0xcc, 1),
        (0, 0xffff, 0xcd, 2),
        (0, 0xffff_ffff, 0xce, 4),
        (0, u64::MAX as i128, 0xcf, 8),
        (i8::MIN as i128, -1, 0xd0, 1),
        (i16::MIN as i128, -1, 0xd1, 2),
        (i32::MIN as i128, -1, 0xd2, 4),
        (i64::MIN as i128, -1, 0xd3, 8),
    ];
    if (-32..=127).contains(&number) {
        out.push(number as i8 as u8);
        return;
    }
    let holds = |form: &&(i128, i128, u8, usize)| form.0 <= number && number <= form.1;
    let (_, _, first, width) = forms.iter().find(holds).expect("a field's number");
    out.push(*first);
    out.extend(&number.to_be_bytes()[16 - width..]);
}
