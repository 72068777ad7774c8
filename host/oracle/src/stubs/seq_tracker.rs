//! Stand-in for src/seq_tracker.rs, which document 01 leaves out.

use serde::Serialize;

#[derive(Debug, Clone, PartialEq, Serialize)]
pub struct SequenceTracker;

impl SequenceTracker {
    pub(crate) fn new() -> Self {
        SequenceTracker
    }
}
