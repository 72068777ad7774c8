//! The entry points of a port that keeps a promise badly: reading, insert and union, which copy what they are given. The others
//! answer 0, and nothing is shown of them.

use super::{is, Fault};
use crate::promises::NO_ROOM;
use crate::slices::{FRESH, POOL, ROWS, SETS};
use manifest::c::Answer;
use manifest::{ENCODED, SOURCES};
use std::slice;

/// Changes the cell unless there is no such fault.
unsafe fn spoil(fault: Fault, cell: *mut u8) {
    if is(fault) {
        *cell = !*cell;
    }
}

/// Reads the cell unless there is no such fault.
unsafe fn peep<T>(fault: Fault, cell: *const T) {
    if is(fault) {
        cell.cast::<u8>().read_volatile();
    }
}

/// Whether the slices are as long as they must be, or that is overlooked.
fn long_enough<const N: usize>(fault: Fault, lent: [usize; N], least: [usize; N]) -> bool {
    is(fault) || lent.iter().zip(least).all(|(lent, least)| *lent >= least)
}

/// Copies its input, and refuses an empty one: how many bytes it says that it wrote, or a refusal. `table` is one of the
/// working tables.
unsafe fn copied(s: &[u8], table: (*mut u64, usize), out: (*mut u8, usize)) -> Result<usize, Answer> {
    spoil(Fault::WritesThenRefuses, out.0);
    spoil(Fault::WritesPastTheOutput, out.0.add(out.1));
    spoil(Fault::WritesBeforeTheOutput, out.0.sub(1));
    spoil(Fault::WritesPastATable, table.0.add(table.1).cast());
    peep(Fault::ReadsPastATable, table.0.add(table.1));
    peep(Fault::ReadsPastTheInput, s.as_ptr().add(s.len()));
    if s.is_empty() {
        return Err(Answer { number: 18, ..Answer::default() });
    }
    if out.1 < s.len() {
        return if is(Fault::TakesAShortOutput) { Ok(0) } else { Err(NO_ROOM) };
    }
    out.0.copy_from(s.as_ptr(), s.len());
    if s.len() < out.1 {
        spoil(Fault::WritesPastTheResult, out.0.add(s.len()));
    }
    if is(Fault::SaysTooLong) {
        return Ok(s.len() + ENCODED);
    }
    if is(Fault::ReadsTheTables) {
        *table.0 += 1;
        return Ok(s.len() - (*table.0 % 2) as usize);
    }
    Ok(s.len())
}

/// The answer of a call that says nothing but how long its result is.
fn wrote(copied: Result<usize, Answer>) -> Answer {
    let third = usize::from(is(Fault::HasNumbersLeft));
    match copied {
        Ok(first) => Answer { first, third, ..Answer::default() },
        Err(refusal) => refusal,
    }
}

#[no_mangle]
unsafe extern "C" fn manifest_read(
    s: *const u8,
    s_len: usize,
    room: *const [u64; 6],
    _: *mut u64,
    segments: usize,
    _: *mut u64,
    views: usize,
    table: *mut u64,
    runs: usize,
    _: *mut u64,
    borrows: usize,
    _: *mut u64,
    ids: usize,
    out: *mut u8,
    out_len: usize,
) -> Answer {
    peep(Fault::ReadsPastTheRoom, room.add(1));
    if s_len > 0 {
        spoil(Fault::WritesTheInput, s.cast_mut());
    }
    if !long_enough(Fault::TakesShortTables, [segments, views, runs, borrows, ids], ROWS) {
        return NO_ROOM;
    }
    wrote(copied(slice::from_raw_parts(s, s_len), (table, runs), (out, out_len)))
}

/// The empty prefix is held, and every other one enters at 0 without a change.
#[no_mangle]
unsafe extern "C" fn manifest_insert(
    s: *const u8,
    s_len: usize,
    _: *const u8,
    prefix_len: usize,
    _: *const [u64; 6],
    _: *mut u64,
    segments: usize,
    _: *mut u64,
    views: usize,
    table: *mut u64,
    runs: usize,
    _: *mut u64,
    borrows: usize,
    _: *mut u64,
    ids: usize,
    _: *mut u64,
    out_segments: usize,
    _: *mut u64,
    out_views: usize,
    out_table: *mut u64,
    out_runs: usize,
    _: *mut u64,
    out_borrows: usize,
    _: *mut u64,
    out_ids: usize,
    out_pool: *mut u8,
    out_pool_len: usize,
    out: *mut u8,
    out_len: usize,
) -> Answer {
    let results = [out_segments, out_views, out_runs, out_borrows, out_ids];
    spoil(Fault::WritesPastAResultTable, out_table.add(out_runs).cast());
    spoil(Fault::WritesPastThePool, out_pool.add(out_pool_len));
    let long = long_enough(Fault::TakesShortTables, [segments, views, runs, borrows, ids], ROWS)
        && long_enough(Fault::TakesShortResults, results, ROWS)
        && long_enough(Fault::TakesShortResults, [out_pool_len], [POOL]);
    if !long {
        return NO_ROOM;
    }
    if prefix_len == 0 {
        spoil(Fault::WritesThoughFound, out);
        return Answer { third: usize::from(is(Fault::HasNumbersLeft)), ..Answer::default() };
    }
    match copied(slice::from_raw_parts(s, s_len), (table, runs), (out, out_len)) {
        Ok(third) => Answer { first: 1, third, ..Answer::default() },
        Err(refusal) => refusal,
    }
}

/// The sources' bytes, one after the other.
#[no_mangle]
unsafe extern "C" fn manifest_union(
    s: *const u8,
    s_len: usize,
    _: *const u64,
    _: usize,
    _: *const u8,
    paths: usize,
    _: *const u64,
    _: usize,
    _: *const u64,
    _: usize,
    _: *const u64,
    fresh: usize,
    _: *const [u64; 6],
    _: *mut u64,
    segments: usize,
    _: *mut u64,
    views: usize,
    table: *mut u64,
    runs: usize,
    _: *mut u64,
    borrows: usize,
    _: *mut u64,
    ids: usize,
    _: *mut u64,
    all_segments: usize,
    _: *mut u64,
    all_views: usize,
    _: *mut u64,
    all_runs: usize,
    _: *mut u64,
    all_borrows: usize,
    _: *mut u64,
    all_ids: usize,
    all_pool: *mut u8,
    all_pool_len: usize,
    lent_fresh: *mut u64,
    lent_fresh_len: usize,
    sets: *mut u64,
    sets_len: usize,
    to_pool: *mut u8,
    to_pool_len: usize,
    out: *mut u8,
    out_len: usize,
) -> Answer {
    spoil(Fault::WritesPastThePool, to_pool.add(to_pool_len));
    spoil(Fault::WritesPastTheSourcesPool, all_pool.add(all_pool_len));
    spoil(Fault::WritesPastTheSets, sets.add(sets_len).cast());
    spoil(Fault::WritesPastTheFresh, lent_fresh.add(lent_fresh_len).cast());
    let all = [all_segments, all_views, all_runs, all_borrows, all_ids];
    let long = long_enough(Fault::TakesShortTables, [segments, views, runs, borrows, ids], ROWS)
        && long_enough(Fault::TakesAShortPool, [to_pool_len], [POOL])
        && long_enough(Fault::TakesShortSources, all, ROWS.map(|count| SOURCES * count))
        && long_enough(Fault::TakesShortSources, [all_pool_len], [SOURCES * POOL + paths])
        && long_enough(Fault::TakesAShortFresh, [lent_fresh_len], [fresh + FRESH])
        && long_enough(Fault::TakesShortSets, [sets_len], [SETS]);
    if !long {
        return NO_ROOM;
    }
    wrote(copied(slice::from_raw_parts(s, s_len), (table, runs), (out, out_len)))
}

/// Entry points that answer 0.
macro_rules! plain {
    ($($name:ident)*) => {
        $(
            #[no_mangle]
            unsafe extern "C" fn $name() -> Answer {
                Answer::default()
            }
        )*
    };
}
plain! {
    manifest_lookup manifest_select manifest_merge_from_writer manifest_merge_from_compactor
    manifest_owned manifest_clone manifest_project
}
