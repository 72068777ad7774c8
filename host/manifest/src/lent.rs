//! The memory that calls work in, as large as the limits of a lawful manifest ask.

/// The most sources of a union.
pub const SOURCES: usize = 8;

/// The longest encoded manifest.
pub const ENCODED: usize = 65_536;

/// The most bytes of a manifest's prefixes, keys, paths and names.
pub(crate) const POOL: usize = 8_192;

/// The memory that calls work in.
pub struct Lent {
    pub(crate) work: Rows,
    /// Where a result is laid out before it is written.
    pub(crate) result: Tables,
    /// For two manifests at a time.
    pub(crate) both: Tables,
    /// The bytes of a projection's arguments, and of the manifest behind them.
    pub(crate) behind: Vec<u8>,
    pub(crate) used: Vec<u64>,
    /// For a union alone, made at the first one.
    pub(crate) all: Option<All>,
    pub(crate) out: Vec<u8>,
}

impl Default for Lent {
    fn default() -> Lent {
        Lent {
            work: Rows::of(1),
            result: Tables::of(1),
            both: Tables::of(2),
            behind: vec![0; POOL],
            used: vec![0; 512 * 2],
            all: None,
            out: vec![0; ENCODED],
        }
    }
}

impl Lent {
    pub fn new() -> Lent {
        Lent::default()
    }
}

/// The tables for so many manifests at a time.
pub struct Rows {
    pub segments: Vec<u64>,
    pub views: Vec<u64>,
    pub runs: Vec<u64>,
    pub borrows: Vec<u64>,
    pub ids: Vec<u64>,
}

impl Rows {
    fn of(count: usize) -> Rows {
        Rows {
            segments: vec![0; count * 64 * 12],
            views: vec![0; count * 512 * 16],
            runs: vec![0; count * 128 * 3],
            borrows: vec![0; count * 32 * 9],
            ids: vec![0; count * 512 * 2],
        }
    }
}

/// The same with their bytes.
pub struct Tables {
    pub rows: Rows,
    pub pool: Vec<u8>,
}

impl Tables {
    fn of(count: usize) -> Tables {
        Tables { rows: Rows::of(count), pool: vec![0; count * POOL] }
    }
}

/// The memory of a union: all sources, its list of fresh UUIDs, and the ids of its groups of borrows.
pub struct All {
    pub sources: Tables,
    pub fresh: Vec<u64>,
    pub sets: Vec<u64>,
}

impl Default for All {
    fn default() -> All {
        All {
            sources: Tables::of(SOURCES),
            fresh: vec![],
            sets: vec![0; SOURCES * (512 + 512) * 2],
        }
    }
}
