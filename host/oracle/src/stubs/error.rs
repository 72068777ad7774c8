// From slatedb 0.16.0, licensed under Apache-2.0 (see LICENSE-APACHE); shortened.

//! Stand-in for src/error.rs: the variants that mod.rs and invariants.rs name.

use bytes::Bytes;
use std::error::Error;
use std::fmt;

#[derive(Clone, Debug)]
pub(crate) enum SlateDBError {
    WalStoreReconfigurationError,
    InvalidSegmentPrefix { prefix: Bytes, conflict: Bytes },
    SegmentExtractorMismatch { persisted: Option<String>, configured: Option<String> },
    SegmentPrefixNotRecognized { prefix: Bytes, extractor: String },
    InvalidClockTick { last_tick: i64, next_tick: i64 },
    InvalidUnion(String),
    InvalidProjection { prefix: Bytes, reason: String },
}

impl fmt::Display for SlateDBError {
    fn fmt(&self, f: &mut fmt::Formatter<'_>) -> fmt::Result {
        write!(f, "{self:?}")
    }
}

impl Error for SlateDBError {}
