//! Document 01's ranges ("Keys, bounds, views"), written from its words and not from slatedb's file.

use crate::rules::{real, Rule};
use bytes::Bytes;
use std::cmp::{max, min, Ordering};
use std::ops::Bound::{self, Excluded, Included, Unbounded};
use std::ops::RangeBounds;

#[derive(Clone, PartialEq, Eq, Debug)]
pub(crate) struct BytesRange {
    start: Bound<Bytes>,
    end: Bound<Bytes>,
}

#[derive(Clone, PartialEq, Eq, Debug)]
pub(crate) struct StartBound<B>(Bound<B>);

#[derive(Clone, PartialEq, Eq, Debug)]
pub(crate) struct EndBound<B>(Bound<B>);

/// "Starts order as unbounded, then by key, included before excluded."
impl<B: Ord> Ord for StartBound<B> {
    fn cmp(&self, other: &Self) -> Ordering {
        match (&self.0, &other.0) {
            (Unbounded, Unbounded) => Ordering::Equal,
            (Unbounded, _) => Ordering::Less,
            (_, Unbounded) => Ordering::Greater,
            (Included(a), Excluded(b)) => a.cmp(b).then(Ordering::Less),
            (Excluded(a), Included(b)) => a.cmp(b).then(Ordering::Greater),
            (Included(a), Included(b)) | (Excluded(a), Excluded(b)) => a.cmp(b),
        }
    }
}

impl<B: Ord> PartialOrd for StartBound<B> {
    fn partial_cmp(&self, other: &Self) -> Option<Ordering> {
        Some(self.cmp(other))
    }
}

/// "Ends by key, excluded before included, then unbounded."
impl<B: Ord> Ord for EndBound<B> {
    fn cmp(&self, other: &Self) -> Ordering {
        match (&self.0, &other.0) {
            (Unbounded, Unbounded) => Ordering::Equal,
            (Unbounded, _) => Ordering::Greater,
            (_, Unbounded) => Ordering::Less,
            (Included(a), Excluded(b)) => a.cmp(b).then(Ordering::Greater),
            (Excluded(a), Included(b)) => a.cmp(b).then(Ordering::Less),
            (Included(a), Included(b)) | (Excluded(a), Excluded(b)) => a.cmp(b),
        }
    }
}

impl<B: Ord> PartialOrd for EndBound<B> {
    fn partial_cmp(&self, other: &Self) -> Option<Ordering> {
        Some(self.cmp(other))
    }
}

impl StartBound<&Bytes> {
    pub(crate) fn cloned(&self) -> StartBound<Bytes> {
        StartBound(self.0.cloned())
    }
}

impl<'a> From<StartBound<&'a Bytes>> for Bound<&'a Bytes> {
    fn from(bound: StartBound<&'a Bytes>) -> Self {
        bound.0
    }
}

impl<'a> From<EndBound<&'a Bytes>> for Bound<&'a Bytes> {
    fn from(bound: EndBound<&'a Bytes>) -> Self {
        bound.0
    }
}

impl RangeBounds<Bytes> for BytesRange {
    fn start_bound(&self) -> Bound<&Bytes> {
        self.start.as_ref()
    }

    fn end_bound(&self) -> Bound<&Bytes> {
        self.end.as_ref()
    }
}

impl BytesRange {
    pub(crate) fn new(start: Bound<Bytes>, end: Bound<Bytes>) -> Self {
        Self::try_new(start, end).expect("Range must be non-empty")
    }

    /// `None` if the range is empty.
    pub(crate) fn try_new(start: Bound<Bytes>, end: Bound<Bytes>) -> Option<Self> {
        let range = Self { start, end };
        let holds = if real(Rule::BoundsOnly) { range.bounds_in_order() } else { range.holds_a_key() };
        holds.then_some(range)
    }

    /// "Is empty when no key is in it": the least key at or after the start decides.
    fn holds_a_key(&self) -> bool {
        let least = match &self.start {
            Unbounded => vec![],
            Included(key) => key.to_vec(),
            Excluded(key) => [key.as_ref(), &[0]].concat(),
        };
        match &self.end {
            Unbounded => true,
            Included(key) => least.as_slice() <= key.as_ref(),
            Excluded(key) => least.as_slice() < key.as_ref(),
        }
    }

    fn bounds_in_order(&self) -> bool {
        match (&self.start, &self.end) {
            (Unbounded, _) | (_, Unbounded) => true,
            (Included(a), Included(b)) => a <= b,
            (Included(a) | Excluded(a), Included(b) | Excluded(b)) => a < b,
        }
    }

    /// "An intersection takes the later start and the earlier end."
    pub(crate) fn intersect(&self, other: &Self) -> Option<Self> {
        let start = max(self.comparable_start_bound(), other.comparable_start_bound());
        let end = min(self.comparable_end_bound(), other.comparable_end_bound());
        Self::try_new(start.0.cloned(), end.0.cloned())
    }

    /// "Included prefix; excluded successor: drop trailing FF bytes and add one to the last byte;
    /// unbounded for no byte left."
    pub(crate) fn from_prefix(prefix: &[u8]) -> Self {
        let mut successor = prefix.to_vec();
        while successor.last() == Some(&0xff) {
            successor.pop();
        }
        let end = match successor.last_mut() {
            None => Unbounded,
            Some(last) => {
                *last += 1;
                Excluded(Bytes::from(successor))
            }
        };
        if prefix.is_empty() && real(Rule::EmptyPrefixUnbounded) {
            return Self::new(Unbounded, end);
        }
        Self::new(Included(Bytes::copy_from_slice(prefix)), end)
    }

    pub(crate) fn comparable_start_bound(&self) -> StartBound<&Bytes> {
        StartBound(self.start.as_ref())
    }

    pub(crate) fn comparable_end_bound(&self) -> EndBound<&Bytes> {
        EndBound(self.end.as_ref())
    }
}

impl serde::Serialize for BytesRange {
    fn serialize<S: serde::Serializer>(&self, _: S) -> Result<S::Ok, S::Error> {
        unimplemented!()
    }
}
