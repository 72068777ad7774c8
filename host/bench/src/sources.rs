//! What a union is timed on: sources of one shape that have all prefixes in common, and no key.

use crate::growth::{array, binary, id, list, tree, NIL};
use manifest::Source;

/// How many sources there are, and what each of them has.
pub struct Shape {
    pub sources: usize,
    /// Each segment has one view, the first ones in a run and the others in L0.
    pub segments: usize,
    pub runs: usize,
    /// Each with a final checkpoint, and as many of the views' ids.
    pub borrows: usize,
    pub ids: usize,
    /// Of each view's first key and of its last.
    pub key: usize,
}

/// Two sources of three views each.
pub const SMALL: Shape = Shape { sources: 2, segments: 3, runs: 1, borrows: 1, ids: 1, key: 4 };

/// Their union has 64 segments, 512 views, 128 runs, 32 borrows, 512 ids and 7,377 bytes.
pub const LARGE: Shape = Shape { sources: 8, segments: 64, runs: 16, borrows: 3, ids: 5, key: 7 };

/// The manifests of all sources. No two views name one SST.
pub fn manifests(shape: &Shape) -> Vec<Vec<u8>> {
    (0..shape.sources).map(|source| manifest(shape, source)).collect()
}

/// The sources, each under a path and a checkpoint of its own.
pub fn sources(manifests: &[Vec<u8>]) -> Vec<Source<'_>> {
    let source = |(number, manifest)| Source {
        manifest,
        path: &PATHS[number..=number],
        checkpoint: 100 + number as u128,
    };
    manifests.iter().map(Vec::as_slice).enumerate().map(source).collect()
}

const PATHS: &[u8; 8] = b"abcdefgh";

fn manifest(shape: &Shape, source: usize) -> Vec<u8> {
    let sst = |number: usize| id(1000 * source + number);
    let prefix = |number: usize| vec![b'p', number as u8];
    let view = |number: usize| {
        let mut key = prefix(number);
        key.push(source as u8);
        key.resize(shape.key, 0);
        array(&[sst(number), sst(number), binary(&key), binary(&key), NIL.to_vec()])
    };
    let segment = |number: usize| {
        let views = array(&[view(number)]);
        let held = if number < shape.runs {
            tree(array(&[]), array(&[array(&[vec![0], views])]))
        } else {
            tree(views, array(&[]))
        };
        array(&[binary(&prefix(number)), held])
    };
    let borrow = |number: usize| {
        let ids = list(shape.ids, |place| sst(number * shape.ids + place));
        array(&[binary(&[b'z', source as u8, number as u8]), id(number), id(7), ids])
    };
    let numbers = |count: usize| vec![vec![0]; count].concat();
    let parts = [
        vec![0x9c, 0xc3],
        tree(array(&[]), array(&[])),
        list(shape.segments, segment),
        binary(b"x"),
        numbers(5),
        list(shape.borrows, borrow),
        numbers(2),
    ];
    parts.concat()
}
