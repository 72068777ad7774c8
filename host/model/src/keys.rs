//! Keys, bounds and ranges.

use std::cmp::Ordering;

pub type Key = Vec<u8>;

#[derive(Clone, Debug, PartialEq)]
pub enum Bound {
    Unbounded,
    Included(Key),
    Excluded(Key),
}

use Bound::{Excluded, Included, Unbounded};

#[derive(Clone, Debug, PartialEq)]
pub struct Range {
    pub start: Bound,
    pub end: Bound,
}

impl Bound {
    pub fn key(&self) -> Option<&Key> {
        match self {
            Unbounded => None,
            Included(key) | Excluded(key) => Some(key),
        }
    }
}

/// "Starts order as unbounded, then by key, included before excluded."
pub fn start_order(a: &Bound, b: &Bound) -> Ordering {
    let rank = |bound: &Bound| match bound {
        Unbounded => (0, vec![], 0),
        Included(key) => (1, key.clone(), 0),
        Excluded(key) => (1, key.clone(), 1),
    };
    rank(a).cmp(&rank(b))
}

/// "Ends by key, excluded before included, then unbounded."
pub fn end_order(a: &Bound, b: &Bound) -> Ordering {
    let rank = |bound: &Bound| match bound {
        Excluded(key) => (0, key.clone(), 0),
        Included(key) => (0, key.clone(), 1),
        Unbounded => (1, vec![], 0),
    };
    rank(a).cmp(&rank(b))
}

pub fn later_start(a: &Bound, b: &Bound) -> Bound {
    if start_order(a, b) == Ordering::Less {
        b.clone()
    } else {
        a.clone()
    }
}

pub fn earlier_end(a: &Bound, b: &Bound) -> Bound {
    if end_order(a, b) == Ordering::Greater {
        b.clone()
    } else {
        a.clone()
    }
}

impl Range {
    pub fn new(start: Bound, end: Bound) -> Range {
        Range { start, end }
    }

    /// "An intersection takes the later start and the earlier end."
    pub fn meet(&self, other: &Range) -> Range {
        Range::new(later_start(&self.start, &other.start), earlier_end(&self.end, &other.end))
    }

    /// "Empty when no key is in it": the least key that the start allows is past the end.
    pub fn is_empty(&self) -> bool {
        let least = match &self.start {
            Unbounded => vec![],
            Included(key) => key.clone(),
            // Right after a key comes that key with a zero byte at its end.
            Excluded(key) => [key.as_slice(), &[0]].concat(),
        };
        match &self.end {
            Unbounded => false,
            Included(key) => least > *key,
            Excluded(key) => least >= *key,
        }
    }

    /// All keys that begin with the prefix: "included prefix; excluded successor: drop trailing FF
    /// bytes and add one to the last byte; unbounded for no byte left".
    pub fn of_prefix(prefix: &[u8]) -> Range {
        let mut successor = prefix.to_vec();
        while successor.last() == Some(&0xff) {
            successor.pop();
        }
        let end = match successor.last_mut() {
            None => Unbounded,
            Some(last) => {
                *last += 1;
                Excluded(successor)
            }
        };
        Range::new(Included(prefix.to_vec()), end)
    }
}
