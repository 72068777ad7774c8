// From slatedb 0.16.0, licensed under Apache-2.0 (see LICENSE-APACHE); shortened.

//! Stand-in for src/checkpoint.rs: the id is all that mod.rs reads.

use serde::Serialize;
use uuid::Uuid;

#[derive(Clone, PartialEq, Serialize, Debug)]
pub struct Checkpoint {
    pub id: Uuid,
}
