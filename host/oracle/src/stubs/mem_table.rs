//! Stand-in for src/mem_table.rs, which the real db_state.rs names. Nothing of it is run.

use bytes::Bytes;
use std::collections::BTreeSet;
use std::sync::Arc;

pub(crate) struct KVTable;

impl KVTable {
    pub(crate) fn touched_segments(&self) -> BTreeSet<Bytes> {
        BTreeSet::new()
    }
}

pub(crate) struct WritableKVTable {
    table: Arc<KVTable>,
}

impl WritableKVTable {
    pub(crate) fn new() -> Self {
        Self { table: Arc::new(KVTable) }
    }

    pub(crate) fn table(&self) -> &Arc<KVTable> {
        &self.table
    }

    pub(crate) fn is_empty(&self) -> bool {
        true
    }
}

pub(crate) struct ImmutableMemtable {
    table: Arc<KVTable>,
}

impl ImmutableMemtable {
    pub(crate) fn new(writable: WritableKVTable, _replay_after_wal_id: u64) -> Self {
        Self { table: writable.table }
    }

    pub(crate) fn table(&self) -> Arc<KVTable> {
        self.table.clone()
    }
}
