//! Stand-in for the crate `slatedb_txn_obj`: names that the originals mention.

use std::error::Error;
use std::sync::Arc;

#[derive(Clone, Copy, Debug, PartialEq, Eq, PartialOrd, Ord)]
pub struct MonotonicId(u64);

impl MonotonicId {
    pub fn id(&self) -> u64 {
        self.0
    }
}

#[derive(Clone, Debug, PartialEq)]
pub struct DirtyObject<T> {
    pub id: MonotonicId,
    pub value: T,
}

type Checked = Result<(), Box<dyn Error + Send + Sync>>;

pub type Invariant<T> = Arc<dyn Fn(&T, &T) -> Checked + Send + Sync>;
