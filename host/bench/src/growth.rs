//! How the time of a call grows with the manifest: one number of L1 at a time, at an eighth, a quarter, a half and the whole of it.

use crate::clock;
use manifest::{Insertion, Lent, Room};
use std::ops::Bound::{Excluded, Included};

const SHARES: [usize; 4] = [8, 4, 2, 1];

/// What a manifest is made of. Its views and runs are in the unsegmented tree.
#[derive(Default)]
struct Size {
    segments: usize,
    views: usize,
    runs: usize,
    borrows: usize,
    ids: usize,
    /// Of each view's first key and of its last.
    key: usize,
}

/// A number of L1, and a manifest that has so many of that.
type Limit = (&'static str, usize, fn(usize) -> Size);

/// There is always room for one segment more. Each run has one view; the bytes are those of 64 views' keys.
const LIMITS: [Limit; 6] = [
    ("segments", 63, |n| Size { segments: n, ..Size::default() }),
    ("views", 512, |n| Size { segments: 2, views: n, key: 2, ..Size::default() }),
    ("runs", 128, |n| Size { segments: 2, runs: n, key: 2, ..Size::default() }),
    ("borrows", 32, |n| Size { segments: 2, borrows: n, ..Size::default() }),
    ("ids", 512, |n| Size { segments: 2, borrows: 1, ids: n, ..Size::default() }),
    ("bytes", 8_064, |n| Size { segments: 2, views: 64, key: n / 128, ..Size::default() }),
];

pub fn array(parts: &[Vec<u8>]) -> Vec<u8> {
    let count = parts.len() as u16;
    let head =
        if count < 16 { vec![0x90 | count as u8] } else { [&[0xdc], &count.to_be_bytes()[..]].concat() };
    [head, parts.concat()].concat()
}

pub fn binary(bytes: &[u8]) -> Vec<u8> {
    [&[0xc4, bytes.len() as u8], bytes].concat()
}

pub fn list(count: usize, part: impl Fn(usize) -> Vec<u8>) -> Vec<u8> {
    array(&(0..count).map(part).collect::<Vec<_>>())
}

pub fn id(number: usize) -> Vec<u8> {
    binary(&(number as u128).to_be_bytes())
}

pub const NIL: [u8; 1] = [0xc0];

pub fn tree(l0: Vec<u8>, runs: Vec<u8>) -> Vec<u8> {
    array(&[NIL.to_vec(), NIL.to_vec(), l0, runs])
}

/// Its keys begin with its number, so that views ascend.
fn view(number: usize, key: usize) -> Vec<u8> {
    let mut name = (number as u16).to_be_bytes().to_vec();
    name.resize(key.max(2), 0);
    array(&[id(number), id(number), binary(&name), binary(&name), NIL.to_vec()])
}

fn manifest(size: &Size) -> Vec<u8> {
    let empty = || array(&[]);
    let run = |number: usize| array(&[vec![0], array(&[view(number, size.key)])]);
    let segment = |number: usize| array(&[binary(&[1, number as u8]), tree(empty(), empty())]);
    let borrow = |number: usize| {
        let ids = if number == 0 { size.ids } else { 0 };
        array(&[binary(&[number as u8]), id(number), NIL.to_vec(), list(ids, id)])
    };
    let numbers = |count: usize| vec![vec![0]; count].concat();
    let parts = [
        vec![0x9c, 0xc3],
        tree(list(size.views, |number| view(number, size.key)), list(size.runs, run)),
        list(size.segments, segment),
        NIL.to_vec(),
        numbers(5),
        list(size.borrows, borrow),
        numbers(2),
    ];
    parts.concat()
}

/// Microseconds of reading, of selecting and of inserting.
fn times(manifest: &[u8]) -> [f64; 3] {
    let (mut one, mut two, mut three) = (Lent::new(), Lent::new(), Lent::new());
    let mut read = || one.read(manifest, &Room::L1).expect("it is lawful").len();
    let mut select = || usize::from(two.select(manifest, Included(&[1]), Excluded(&[2])).is_ok());
    let mut insert = || match three.insert(manifest, &[2], &Room::L1).expect("it is lawful") {
        Insertion::Entered(_, anew) => anew.len(),
        Insertion::Found(_) => 0,
    };
    assert!(insert() > 0, "there is room for one more");
    [clock::best(&mut read), clock::best(&mut select), clock::best(&mut insert)].map(|time| time / 1000.0)
}

/// The table, as Markdown.
pub fn table() -> String {
    let mut text =
        "| limit | operation | an eighth | a quarter | a half | the whole | the whole over an eighth |\n\
        |---|---|---|---|---|---|---|\n"
            .to_string();
    for (name, most, size) in LIMITS {
        let all = SHARES.map(|share| times(&manifest(&size(most / share))));
        for (place, operation) in ["read", "select", "insert"].into_iter().enumerate() {
            let row = all.map(|times| times[place]);
            let cells = row.map(|time| format!("{time:.2} µs")).join(" | ");
            text += &format!("| {name} | {operation} | {cells} | {:.2} |\n", row[3] / row[0]);
        }
    }
    text
}
