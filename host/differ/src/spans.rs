//! Smaller forms of some MessagePack in which every value that stays keeps its own bytes, so that a difference which
//! hangs on how a value is written stays too.

use calls::decode;

/// A value: where it stands, and of an array where its elements begin and stand.
struct Span {
    start: usize,
    end: usize,
    elements: Option<(usize, Vec<Span>)>,
}

/// Without one element of some array, with one of them nil, or with one written shortest.
pub fn smaller(bytes: &[u8]) -> Vec<Vec<u8>> {
    let mut found = vec![];
    match span(bytes, 0) {
        Some(whole) if whole.end == bytes.len() => collect(bytes, &whole, &mut found),
        _ => {}
    }
    found
}

fn collect(bytes: &[u8], array: &Span, found: &mut Vec<Vec<u8>>) {
    let Some((inside, elements)) = &array.elements else { return };
    let with = |part: &Span, other: &[u8]| [&bytes[..part.start], other, &bytes[part.end..]].concat();
    for element in elements {
        let mut without = with(element, &[]);
        lower(&mut without[array.start..*inside]);
        found.push(without);
        found.push(with(element, &[0xc0]));
        if let Some(value) = decode(&bytes[element.start..element.end]) {
            found.push(with(element, &value.encode()));
        }
        collect(bytes, element, found);
    }
}

/// An array's head with one element less, in its own width.
fn lower(head: &mut [u8]) {
    let first = if head.len() == 1 { 0 } else { 1 };
    for byte in head[first..].iter_mut().rev() {
        *byte = byte.wrapping_sub(1);
        if *byte != 0xff {
            return;
        }
    }
}

fn number(bytes: &[u8], at: usize, width: usize) -> Option<usize> {
    Some(bytes.get(at..at + width)?.iter().fold(0, |sum, byte| sum << 8 | usize::from(*byte)))
}

fn span(bytes: &[u8], start: usize) -> Option<Span> {
    let first = *bytes.get(start)?;
    let array = match first {
        0x90..=0x9f => Some((1, usize::from(first & 15))),
        0xdc => Some((3, number(bytes, start + 1, 2)?)),
        0xdd => Some((5, number(bytes, start + 1, 4)?)),
        _ => None,
    };
    let Some((head, count)) = array else {
        let end = start + length(bytes, start, first)?;
        return (end <= bytes.len()).then_some(Span { start, end, elements: None });
    };
    let (mut end, mut elements) = (start + head, vec![]);
    for _ in 0..count {
        let element = span(bytes, end)?;
        end = element.end;
        elements.push(element);
    }
    Some(Span { start, end, elements: Some((start + head, elements)) })
}

/// Of a value that is no array. Maps are not gone into: no record has one.
fn length(bytes: &[u8], start: usize, first: u8) -> Option<usize> {
    Some(match first {
        0x00..=0x7f | 0xe0..=0xff | 0xc0 | 0xc2 | 0xc3 | 0x80 => 1,
        0xa0..=0xbf => 1 + usize::from(first & 31),
        0xc4 | 0xd9 => 2 + number(bytes, start + 1, 1)?,
        0xc5 | 0xda => 3 + number(bytes, start + 1, 2)?,
        0xc6 | 0xdb => 5 + number(bytes, start + 1, 4)?,
        0xcc | 0xd0 => 2,
        0xcd | 0xd1 => 3,
        0xca | 0xce | 0xd2 => 5,
        0xcb | 0xcf | 0xd3 => 9,
        _ => return None,
    })
}
