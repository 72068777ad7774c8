//! Stand-in for src/utils.rs: new ids are the lent UUIDs.

use slatedb_common::FreshRng;
use uuid::Uuid;

pub(crate) trait IdGenerator {
    fn gen_uuid(&mut self) -> Uuid;
}

impl IdGenerator for FreshRng<'_> {
    fn gen_uuid(&mut self) -> Uuid {
        self.next_uuid()
    }
}
