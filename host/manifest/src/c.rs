//! The entry points as C sees them.

/// 0 and the answer's numbers, or a refusal's number and place.
#[repr(C)]
#[derive(Clone, Copy, Debug, Default, PartialEq, Eq)]
pub struct Answer {
    pub number: usize,
    pub first: usize,
    pub second: usize,
    pub third: usize,
}

/// The entry point of a merge.
pub type Merge = unsafe extern "C" fn(
    *const u8, usize, *const u8, usize, *const [u64; 6],
    *mut u64, usize, *mut u64, usize, *mut u64, usize, *mut u64, usize, *mut u64, usize,
    *mut u64, usize, *mut u64, usize, *mut u64, usize, *mut u64, usize, *mut u64, usize, *mut u8, usize,
    *mut u8, usize, *mut u8, usize,
) -> Answer;

extern "C" {
    pub fn manifest_read(
        s: *const u8, s_len: usize,
        room: *const [u64; 6],
        segments: *mut u64, segments_len: usize,
        views: *mut u64, views_len: usize,
        runs: *mut u64, runs_len: usize,
        borrows: *mut u64, borrows_len: usize,
        ids: *mut u64, ids_len: usize,
        out: *mut u8, out_len: usize,
    ) -> Answer;

    pub fn manifest_lookup(
        s: *const u8, s_len: usize,
        prefix: *const u8, prefix_len: usize,
        segments: *mut u64, segments_len: usize,
        views: *mut u64, views_len: usize,
        runs: *mut u64, runs_len: usize,
        borrows: *mut u64, borrows_len: usize,
        ids: *mut u64, ids_len: usize,
    ) -> Answer;

    pub fn manifest_select(
        s: *const u8, s_len: usize,
        args: *const u8, args_len: usize,
        range: *const [u64; 6],
        segments: *mut u64, segments_len: usize,
        views: *mut u64, views_len: usize,
        runs: *mut u64, runs_len: usize,
        borrows: *mut u64, borrows_len: usize,
        ids: *mut u64, ids_len: usize,
    ) -> Answer;

    pub fn manifest_insert(
        s: *const u8, s_len: usize,
        prefix: *const u8, prefix_len: usize,
        room: *const [u64; 6],
        segments: *mut u64, segments_len: usize,
        views: *mut u64, views_len: usize,
        runs: *mut u64, runs_len: usize,
        borrows: *mut u64, borrows_len: usize,
        ids: *mut u64, ids_len: usize,
        out_segments: *mut u64, out_segments_len: usize,
        out_views: *mut u64, out_views_len: usize,
        out_runs: *mut u64, out_runs_len: usize,
        out_borrows: *mut u64, out_borrows_len: usize,
        out_ids: *mut u64, out_ids_len: usize,
        out_pool: *mut u8, out_pool_len: usize,
        out: *mut u8, out_len: usize,
    ) -> Answer;

    pub fn manifest_merge_from_writer(
        writer: *const u8, writer_len: usize,
        compactor: *const u8, compactor_len: usize,
        room: *const [u64; 6],
        segments: *mut u64, segments_len: usize,
        views: *mut u64, views_len: usize,
        runs: *mut u64, runs_len: usize,
        borrows: *mut u64, borrows_len: usize,
        ids: *mut u64, ids_len: usize,
        both_segments: *mut u64, both_segments_len: usize,
        both_views: *mut u64, both_views_len: usize,
        both_runs: *mut u64, both_runs_len: usize,
        both_borrows: *mut u64, both_borrows_len: usize,
        both_ids: *mut u64, both_ids_len: usize,
        both_pool: *mut u8, both_pool_len: usize,
        pool: *mut u8, pool_len: usize,
        out: *mut u8, out_len: usize,
    ) -> Answer;

    pub fn manifest_merge_from_compactor(
        writer: *const u8, writer_len: usize,
        compactor: *const u8, compactor_len: usize,
        room: *const [u64; 6],
        segments: *mut u64, segments_len: usize,
        views: *mut u64, views_len: usize,
        runs: *mut u64, runs_len: usize,
        borrows: *mut u64, borrows_len: usize,
        ids: *mut u64, ids_len: usize,
        both_segments: *mut u64, both_segments_len: usize,
        both_views: *mut u64, both_views_len: usize,
        both_runs: *mut u64, both_runs_len: usize,
        both_borrows: *mut u64, both_borrows_len: usize,
        both_ids: *mut u64, both_ids_len: usize,
        both_pool: *mut u8, both_pool_len: usize,
        pool: *mut u8, pool_len: usize,
        out: *mut u8, out_len: usize,
    ) -> Answer;

    pub fn manifest_owned(
        s: *const u8, s_len: usize,
        segments: *mut u64, segments_len: usize,
        views: *mut u64, views_len: usize,
        runs: *mut u64, runs_len: usize,
        borrows: *mut u64, borrows_len: usize,
        ids: *mut u64, ids_len: usize,
        out: *mut u64, out_len: usize,
    ) -> Answer;

    pub fn manifest_clone(
        s: *const u8, s_len: usize,
        path: *const u8, path_len: usize,
        checkpoint: *const [u64; 2],
        fresh: *const u64, fresh_len: usize,
        room: *const [u64; 6],
        segments: *mut u64, segments_len: usize,
        views: *mut u64, views_len: usize,
        runs: *mut u64, runs_len: usize,
        borrows: *mut u64, borrows_len: usize,
        ids: *mut u64, ids_len: usize,
        out_segments: *mut u64, out_segments_len: usize,
        out_views: *mut u64, out_views_len: usize,
        out_runs: *mut u64, out_runs_len: usize,
        out_borrows: *mut u64, out_borrows_len: usize,
        out_ids: *mut u64, out_ids_len: usize,
        out_pool: *mut u8, out_pool_len: usize,
        out: *mut u8, out_len: usize,
    ) -> Answer;

    pub fn manifest_project(
        s: *const u8, s_len: usize,
        args: *const u8, args_len: usize,
        asked: *const [u64; 5],
        global: *const [u64; 6],
        own: *const u64, own_len: usize,
        room: *const [u64; 6],
        segments: *mut u64, segments_len: usize,
        views: *mut u64, views_len: usize,
        runs: *mut u64, runs_len: usize,
        borrows: *mut u64, borrows_len: usize,
        ids: *mut u64, ids_len: usize,
        in_segments: *mut u64, in_segments_len: usize,
        in_views: *mut u64, in_views_len: usize,
        in_runs: *mut u64, in_runs_len: usize,
        in_borrows: *mut u64, in_borrows_len: usize,
        in_ids: *mut u64, in_ids_len: usize,
        in_pool: *mut u8, in_pool_len: usize,
        used: *mut u64, used_len: usize,
        pool: *mut u8, pool_len: usize,
        out: *mut u8, out_len: usize,
    ) -> Answer;

    pub fn manifest_union(
        s: *const u8, s_len: usize,
        ends: *const u64, ends_len: usize,
        paths: *const u8, paths_len: usize,
        path_ends: *const u64, path_ends_len: usize,
        checkpoints: *const u64, checkpoints_len: usize,
        fresh: *const u64, fresh_len: usize,
        room: *const [u64; 6],
        segments: *mut u64, segments_len: usize,
        views: *mut u64, views_len: usize,
        runs: *mut u64, runs_len: usize,
        borrows: *mut u64, borrows_len: usize,
        ids: *mut u64, ids_len: usize,
        all_segments: *mut u64, all_segments_len: usize,
        all_views: *mut u64, all_views_len: usize,
        all_runs: *mut u64, all_runs_len: usize,
        all_borrows: *mut u64, all_borrows_len: usize,
        all_ids: *mut u64, all_ids_len: usize,
        all_pool: *mut u8, all_pool_len: usize,
        lent_fresh: *mut u64, lent_fresh_len: usize,
        sets: *mut u64, sets_len: usize,
        to_pool: *mut u8, to_pool_len: usize,
        out: *mut u8, out_len: usize,
    ) -> Answer;
}
