//! Arguments as an entry point takes them: bytes one after the other, and numbers that say where each stands.

use crate::values::Keys;
use std::ops::Bound;

/// Parts one after the other, and where each of them ends.
pub fn joined<'a>(parts: impl Iterator<Item = &'a [u8]>) -> (Vec<u8>, Vec<u64>) {
    let (mut bytes, mut ends) = (vec![], vec![]);
    for part in parts {
        bytes.extend_from_slice(part);
        ends.push(bytes.len() as u64);
    }
    (bytes, ends)
}

/// An id's two words, the high one first.
pub fn halves(id: &u128) -> [u64; 2] {
    [(id >> 64) as u64, *id as u64]
}

/// The words of ids.
pub fn words<'a>(ids: impl IntoIterator<Item = &'a u128>) -> Vec<u64> {
    ids.into_iter().flat_map(halves).collect()
}

/// The numbers of a start and of an end, their keys behind the bytes so far.
pub fn range((start, end): Keys<'_>, args: &mut Vec<u8>) -> [u64; 6] {
    let ([a, b, c], [d, e, f]) = (bound(start, args), bound(end, args));
    [a, b, c, d, e, f]
}

/// A bound's three numbers, its key behind the bytes so far.
fn bound(bound: Bound<&[u8]>, args: &mut Vec<u8>) -> [u64; 3] {
    let (kind, key) = match bound {
        Bound::Unbounded => return [0, 0, 0],
        Bound::Included(key) => (1, key),
        Bound::Excluded(key) => (2, key),
    };
    let at = args.len();
    args.extend_from_slice(key);
    [kind, at as u64, key.len() as u64]
}
