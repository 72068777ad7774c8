//! Tables and pools as an entry point takes them: pointers and lengths. And how large each of them is.

use crate::lent::Lent;
use manifest::SOURCES;

/// Words of the working tables for one manifest: segments, views, runs, borrows, ids.
pub const ROWS: [usize; 5] = [64 * 12, 512 * 16, 128 * 3, 32 * 9, 512 * 2];

/// Bytes of the pool of a result.
pub const POOL: usize = 8_192;

/// Words of the list of ids in use.
pub const USED: usize = 512 * 2;

/// Words behind a union's fresh UUIDs: for twice as many borrows as a manifest may have.
pub const FRESH: usize = 32 * 2;

/// Words of the ids of a union's groups of borrows, for eight sources.
pub const SETS: usize = SOURCES * (512 + 512) * 2;

/// A slice that an entry point may write, as it takes it.
pub struct Slice<T> {
    pub at: *mut T,
    pub len: usize,
}

impl<T> Slice<T> {
    /// The cells must outlive the call.
    pub fn of(cells: &mut [T]) -> Slice<T> {
        Slice { at: cells.as_mut_ptr(), len: cells.len() }
    }
}

pub type Rows = [Slice<u64>; 5];

/// The tables in which a result is laid out before it is written.
pub struct Results {
    pub rows: Rows,
    pub pool: Slice<u8>,
}

/// A union's working memory: tables for all sources, the list of fresh UUIDs, and its groups' ids.
pub struct All {
    pub sources: Results,
    pub fresh: Slice<u64>,
    pub sets: Slice<u64>,
}

/// An entry point on what it is given to read, and then on the slices that it may write: `rows` stands before five of them.
macro_rules! call {
    ($entry:path, [$($told:tt)*]) => {
        // Every pointer and length is that of a slice which outlives the call, and no two overlap.
        unsafe { $entry($($told)*) }
    };
    ($entry:path, [$($told:tt)*] rows $rows:expr $(, $($rest:tt)*)?) => {
        call!(
            $entry,
            [
                $($told)*
                $rows[0].at, $rows[0].len, $rows[1].at, $rows[1].len, $rows[2].at, $rows[2].len,
                $rows[3].at, $rows[3].len, $rows[4].at, $rows[4].len,
            ]
            $($($rest)*)?
        )
    };
    ($entry:path, [$($told:tt)*] $slice:expr $(, $($rest:tt)*)?) => {
        call!($entry, [$($told)* $slice.at, $slice.len,] $($($rest)*)?)
    };
}
pub(crate) use call;

/// The tables, filled with the pattern or as the last call left them.
pub fn lend<const N: usize>(tables: &mut [Lent<u64>; N], counts: [usize; N], fresh: bool) -> [Slice<u64>; N] {
    let mut counts = counts.into_iter();
    tables.each_mut().map(|table| {
        let count = counts.next().unwrap_or(0);
        Slice::of(if fresh { table.filled(count) } else { table.as_left() })
    })
}

/// The tables as the last call left them, this one a word too short.
pub fn shorten<const N: usize>(tables: &mut [Lent<u64>; N], short: usize) -> [Slice<u64>; N] {
    let mut places = 0..;
    tables.each_mut().map(|table| Slice::of(table.as_left_or_short(places.next() == Some(short))))
}
