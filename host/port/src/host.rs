//! What is lent to the entry points, kept from call to call.

use crate::lent::{byte, word, Lent};
use crate::promises::{require, Broken};
use crate::slices::{lend, shorten, All, Results, Rows, Slice, FRESH, POOL, ROWS, SETS, USED};
use manifest::{ENCODED, SOURCES};

/// The most places lent for owned ids, some more than any manifest owns.
pub const PLACES: usize = 520;

/// The longest path.
const PATH: usize = 64;

pub struct Host {
    pub rows: [Lent<u64>; 5],
    results: [Lent<u64>; 5],
    pool: Lent<u8>,
    /// For two manifests at a time.
    both: [Lent<u64>; 5],
    both_pool: Lent<u8>,
    /// The bytes of a projection's arguments, and of the manifest behind them.
    behind: Lent<u8>,
    used: Lent<u64>,
    /// For eight manifests at a time, and the paths' bytes.
    all: [Lent<u64>; 5],
    all_pool: Lent<u8>,
    fresh: Lent<u64>,
    sets: Lent<u64>,
    pub out: Lent<u8>,
    pub ids: Lent<u64>,
    pub answered: u64,
    /// Whether 2 may come after the working tables were judged, as that of an own range does.
    pub late: bool,
}

impl Default for Host {
    fn default() -> Host {
        let rows = |manifests: usize| ROWS.map(|count| Lent::new(manifests * count, word));
        Host {
            rows: rows(1),
            results: rows(1),
            pool: Lent::new(POOL, byte),
            both: rows(2),
            both_pool: Lent::new(2 * POOL, byte),
            behind: Lent::new(POOL, byte),
            used: Lent::new(USED, word),
            all: rows(SOURCES),
            all_pool: Lent::new(SOURCES * (POOL + PATH), byte),
            fresh: Lent::new(FRESH, word),
            sets: Lent::new(SETS, word),
            out: Lent::new(ENCODED, byte),
            ids: Lent::new(2 * PLACES + 1, word),
            answered: 0,
            late: false,
        }
    }
}

impl Host {
    /// Working tables for one manifest. They may hold anything: a pattern now and then, and mostly
    /// what earlier calls left.
    pub fn rows(&mut self) -> Rows {
        let fresh = self.fresh();
        lend(&mut self.rows, ROWS, fresh)
    }

    /// The same for a result.
    pub fn results(&mut self) -> Results {
        let fresh = self.fresh();
        let pool = Slice::of(if fresh { self.pool.filled(POOL) } else { self.pool.as_left() });
        Results { rows: lend(&mut self.results, ROWS, fresh), pool }
    }

    /// One of them a cell too short.
    pub fn short_results(&mut self) -> Results {
        let short = self.turn(6);
        let pool = Slice::of(self.pool.as_left_or_short(short == 5));
        Results { rows: shorten(&mut self.results, short), pool }
    }

    /// Working tables for two manifests.
    pub fn both(&mut self) -> Results {
        let fresh = self.fresh();
        let pool = Slice::of(if fresh { self.both_pool.filled(2 * POOL) } else { self.both_pool.as_left() });
        Results { rows: lend(&mut self.both, ROWS.map(|count| 2 * count), fresh), pool }
    }

    /// One of them, or the pool of the list, a cell too short.
    pub fn short_both(&mut self) -> (Results, Slice<u8>) {
        let short = self.turn(7);
        let held = Slice::of(self.both_pool.as_left_or_short(short == 5));
        let pool = Slice::of(self.pool.as_left_or_short(short == 6));
        (Results { rows: shorten(&mut self.both, short), pool: held }, pool)
    }

    /// The pool that holds a projection's manifest, with room for so many bytes of arguments before it.
    pub fn behind(&mut self, args: usize) -> Slice<u8> {
        self.behind = Lent::new(POOL + args, byte);
        Slice::of(self.behind.filled(POOL + args))
    }

    /// The list of ids in use.
    pub fn used(&mut self) -> Slice<u64> {
        Slice::of(self.used.filled(USED))
    }

    /// From now on a union's list holds so many fresh UUIDs' words, and as many again as a manifest may have borrows.
    pub fn hold_fresh(&mut self, given: usize) {
        self.fresh = Lent::new(given + FRESH, word);
    }

    /// Working memory for the sources of a union, and so many bytes of paths. More than eight paths of 64 bytes are refused first.
    pub fn all(&mut self, paths: usize) -> All {
        let fresh = self.fresh();
        let pool = self.all_pool.filled(SOURCES * POOL + paths.min(SOURCES * PATH));
        let sources = Results {
            rows: lend(&mut self.all, ROWS.map(|count| SOURCES * count), fresh),
            pool: Slice::of(pool),
        };
        let sets = Slice::of(if fresh { self.sets.filled(SETS) } else { self.sets.as_left() });
        All { sources, fresh: Slice::of(self.fresh.as_left()), sets }
    }

    /// One of them, or the pool of the result, a cell too short.
    pub fn short_all(&mut self) -> (All, Slice<u8>) {
        let short = self.turn(9);
        let pool = Slice::of(self.all_pool.as_left_or_short(short == 5));
        let sources = Results { rows: shorten(&mut self.all, short), pool };
        let fresh = Slice::of(self.fresh.as_left_or_short(short == 6));
        let sets = Slice::of(self.sets.as_left_or_short(short == 7));
        (All { sources, fresh, sets }, Slice::of(self.pool.as_left_or_short(short == 8)))
    }

    /// Nothing was written beside what is lent, the outputs apart.
    pub fn guarded(&self) -> Result<(), Broken> {
        let one = self.rows.iter().chain(&self.results);
        let mut tables = one.chain(&self.both).chain(&self.all);
        let pools = self.pool.guarded()
            && self.both_pool.guarded()
            && self.behind.guarded()
            && self.all_pool.guarded();
        let kept = tables.all(Lent::guarded) && pools && self.used.guarded() && self.fresh.guarded() && self.sets.guarded();
        require(kept, "something was written beside the working tables")
    }

    fn fresh(&self) -> bool {
        self.answered % 16 == 1
    }

    /// Some calls are made again, in other places than the first time.
    pub fn probes(&self) -> bool {
        self.answered % 16 == 15
    }

    /// Which of so many slices is too short this time.
    pub fn turn(&self, slices: u64) -> usize {
        (self.answered / 16 % slices) as usize
    }
}
