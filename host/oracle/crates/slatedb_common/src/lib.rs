//! Stand-in for `slatedb_common::DbRand`: hands out the lent UUIDs in order. Past the last one it
//! hands out zeros and remembers that it did. So the operation's own refusals, which come before
//! "too few fresh UUIDs", can still be given.

use std::cell::{Cell, RefCell};
use std::vec::IntoIter;
use uuid::Uuid;

pub struct DbRand {
    fresh: RefCell<IntoIter<Uuid>>,
    exhausted: Cell<bool>,
}

impl DbRand {
    pub fn lent(fresh: Vec<Uuid>) -> Self {
        DbRand { fresh: RefCell::new(fresh.into_iter()), exhausted: Cell::new(false) }
    }

    pub fn exhausted(&self) -> bool {
        self.exhausted.get()
    }

    pub fn rng(&self) -> FreshRng<'_> {
        FreshRng(self)
    }
}

pub struct FreshRng<'a>(&'a DbRand);

impl FreshRng<'_> {
    pub fn next_uuid(&mut self) -> Uuid {
        self.0.fresh.borrow_mut().next().unwrap_or_else(|| {
            self.0.exhausted.set(true);
            Uuid::from_bytes([0; 16])
        })
    }
}
