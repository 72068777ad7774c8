//! Document 01's views and runs ("Keys, bounds, views"), written from its words and not from
//! slatedb's file.

use crate::bytes_range::BytesRange;
use crate::rules::{real, Rule};
use bytes::Bytes;
use serde::Serialize;
use std::ops::Bound::{Excluded, Included, Unbounded};
use std::ops::RangeBounds;
use ulid::Ulid;

#[derive(Clone, Copy, PartialEq, Eq, PartialOrd, Ord, Hash, Debug, Serialize)]
pub enum SsTableId {
    Compacted(Ulid),
}

impl SsTableId {
    pub fn unwrap_compacted_id(&self) -> Ulid {
        let SsTableId::Compacted(id) = self;
        *id
    }
}

#[derive(Clone, PartialEq, Debug, Default, Serialize)]
pub struct SsTableInfo {
    pub first_entry: Option<Bytes>,
    pub last_entry: Option<Bytes>,
}

#[derive(Clone, PartialEq, Debug, Serialize)]
pub struct SsTableHandle {
    pub id: SsTableId,
    pub info: SsTableInfo,
}

impl SsTableHandle {
    pub(crate) fn new(id: SsTableId, _format_version: u16, info: SsTableInfo) -> Self {
        Self { id, info }
    }

    fn first_key(&self) -> Bytes {
        self.info.first_entry.clone().expect("a view has a first key")
    }

    /// "Physical range: first key included, to last key included or unbounded."
    fn physical(&self) -> BytesRange {
        let end = self.info.last_entry.clone().map_or(Unbounded, Included);
        BytesRange::new(Included(self.first_key()), end)
    }
}

#[derive(Clone, PartialEq, Debug, Serialize)]
pub struct SsTableView {
    pub id: Ulid,
    pub sst: SsTableHandle,
    pub(crate) visible_range: Option<BytesRange>,
    effective_range: BytesRange,
}

impl SsTableView {
    pub(crate) fn new_projected(id: Ulid, sst: SsTableHandle, visible_range: Option<BytesRange>) -> Self {
        let mut effective_range = sst.physical();
        if let Some(visible) = &visible_range {
            assert!(
                !real(Rule::ExcludedStartPanics) || !matches!(visible.start_bound(), Excluded(_)),
                "Start bound of the visible range must be either Included or Unbounded."
            );
            effective_range = effective_range
                .intersect(visible)
                .expect("An intersection of visible and physical range must be non-empty.");
        }
        Self { id, sst, visible_range, effective_range }
    }

    /// "Effective: physical met with visible."
    pub(crate) fn compacted_effective_range(&self) -> &BytesRange {
        &self.effective_range
    }

    /// "Span: as physical, but ending at the next view's first key, excluded, if its run has a next
    /// view; met with visible." `None` if it is empty.
    fn span(&self, next: Option<&SsTableView>) -> Option<BytesRange> {
        let Some(next) = next else {
            return Some(self.effective_range.clone());
        };
        let end = if real(Rule::NextEffective) {
            match next.effective_range.start_bound() {
                Included(key) => key.clone(),
                _ => unreachable!("Invalid start bound"),
            }
        } else {
            next.sst.first_key()
        };
        let span = if real(Rule::VisibleEndForgotten) {
            BytesRange::try_new(self.effective_range.start_bound().cloned(), Excluded(end))
        } else {
            let whole = BytesRange::try_new(Included(self.sst.first_key()), Excluded(end));
            match &self.visible_range {
                Some(visible) => whole.and_then(|whole| whole.intersect(visible)),
                None => whole,
            }
        };
        assert!(span.is_some() || !real(Rule::EmptySpanPanics), "Range must be non-empty");
        span
    }

    /// "Span met with range."
    pub(crate) fn compacted_intersection(
        &self,
        next_view: Option<&SsTableView>,
        range: &BytesRange,
    ) -> Option<BytesRange> {
        self.span(next_view)?.intersect(range)
    }

    /// "The view goes if that is empty or holds no physical key."
    pub(crate) fn try_with_visible_range(&self, visible_range: BytesRange) -> Option<Self> {
        self.sst.physical().intersect(&visible_range)?;
        Some(Self::new_projected(self.id, self.sst.clone(), Some(visible_range)))
    }

    pub fn estimate_size(&self) -> u64 {
        0
    }
}

#[derive(Clone, PartialEq, Debug, Serialize)]
pub struct SortedRun {
    pub id: u32,
    sst_views: Vec<SsTableView>,
}

impl SortedRun {
    pub fn new(id: u32, sst_views: impl IntoIterator<Item = SsTableView>) -> Self {
        Self { id, sst_views: sst_views.into_iter().collect() }
    }

    pub fn sst_views(&self) -> &[SsTableView] {
        &self.sst_views
    }

    pub fn estimate_size(&self) -> u64 {
        0
    }
}
