//! Stand-in for src/reader.rs, which the real db_state.rs names. Nothing of it is run.

use crate::manifest::ManifestCore;
use crate::mem_table::{ImmutableMemtable, KVTable};
use std::collections::VecDeque;
use std::sync::Arc;

pub(crate) trait DbStateReader {
    fn memtable(&self) -> Arc<KVTable>;
    fn imm_memtable(&self) -> &VecDeque<Arc<ImmutableMemtable>>;
    fn core(&self) -> &ManifestCore;
}
