// From slatedb 0.16.0, licensed under Apache-2.0 (see LICENSE-APACHE); shortened.

//! Stand-in for src/clone.rs: the three items that mod.rs names, as the original declares them.

use crate::bytes_range::BytesRange;
use crate::checkpoint::Checkpoint;
use crate::error::SlateDBError;
use crate::manifest::Manifest;
use object_store::path::Path;
use std::sync::Arc;

pub(crate) type SegmentFilterFn = Arc<dyn Fn(&[u8]) -> bool + Send + Sync>;
pub(crate) type SegmentProjectionFn = Arc<dyn Fn(&[u8]) -> Result<BytesRange, SlateDBError> + Send + Sync>;

#[derive(Clone)]
pub(crate) struct CloneSource {
    pub path: Path,
    pub manifest: Manifest,
    pub checkpoint: Checkpoint,
}
