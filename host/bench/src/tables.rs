//! A manifest in tables, and the operations on it: the proved functions of `crates/exports_tables`. `manifest/include/tables.h` says
//! what each promises.

use manifest::c::Answer;

mod c {
    use super::Laid;
    use manifest::c::Answer;

    extern "C" {
        pub fn tables_read(
            s: *const u8, s_len: usize,
            segments: *mut u64, segments_len: usize,
            views: *mut u64, views_len: usize,
            runs: *mut u64, runs_len: usize,
            borrows: *mut u64, borrows_len: usize,
            ids: *mut u64, ids_len: usize,
            out_segments: *mut u64, out_segments_len: usize,
            out_views: *mut u64, out_views_len: usize,
            out_runs: *mut u64, out_runs_len: usize,
            out_borrows: *mut u64, out_borrows_len: usize,
            out_ids: *mut u64, out_ids_len: usize,
            out_pool: *mut u8, out_pool_len: usize,
        ) -> Laid;

        pub fn tables_write(
            tree: *const [u64; 12], rest: *const [u64; 12], tick: i64,
            segments: *const u64, segments_len: usize,
            views: *const u64, views_len: usize,
            runs: *const u64, runs_len: usize,
            borrows: *const u64, borrows_len: usize,
            ids: *const u64, ids_len: usize,
            pool: *const u8, pool_len: usize,
            out: *mut u8, out_len: usize,
        ) -> Answer;

        pub fn tables_lookup(
            tree: *const [u64; 12], rest: *const [u64; 12], tick: i64,
            segments: *const u64, segments_len: usize,
            views: *const u64, views_len: usize,
            runs: *const u64, runs_len: usize,
            borrows: *const u64, borrows_len: usize,
            ids: *const u64, ids_len: usize,
            pool: *const u8, pool_len: usize,
            prefix: *const u8, prefix_len: usize,
        ) -> Answer;

        pub fn tables_select(
            tree: *const [u64; 12], rest: *const [u64; 12], tick: i64,
            segments: *const u64, segments_len: usize,
            views: *const u64, views_len: usize,
            runs: *const u64, runs_len: usize,
            borrows: *const u64, borrows_len: usize,
            ids: *const u64, ids_len: usize,
            pool: *const u8, pool_len: usize,
            args: *const u8, args_len: usize,
            range: *const [u64; 6],
        ) -> Answer;

        pub fn tables_insert(
            tree: *const [u64; 12], rest: *const [u64; 12], tick: i64,
            segments: *const u64, segments_len: usize,
            views: *const u64, views_len: usize,
            runs: *const u64, runs_len: usize,
            borrows: *const u64, borrows_len: usize,
            ids: *const u64, ids_len: usize,
            pool: *const u8, pool_len: usize,
            prefix: *const u8, prefix_len: usize,
            out_segments: *mut u64, out_segments_len: usize,
            out_views: *mut u64, out_views_len: usize,
            out_runs: *mut u64, out_runs_len: usize,
            out_borrows: *mut u64, out_borrows_len: usize,
            out_ids: *mut u64, out_ids_len: usize,
            out_pool: *mut u8, out_pool_len: usize,
        ) -> Laid;
    }
}

/// An answer, and the own value of the manifest that was laid into tables.
#[repr(C)]
#[derive(Default)]
pub struct Laid {
    answer: Answer,
    tree: [u64; 12],
    rest: [u64; 12],
    tick: i64,
}

/// The tables of one manifest, as large as L1 allows.
struct Rows {
    segments: Vec<u64>,
    views: Vec<u64>,
    runs: Vec<u64>,
    borrows: Vec<u64>,
    ids: Vec<u64>,
    pool: Vec<u8>,
}

impl Default for Rows {
    fn default() -> Rows {
        Rows {
            segments: vec![0; 64 * 12],
            views: vec![0; 512 * 16],
            runs: vec![0; 128 * 3],
            borrows: vec![0; 32 * 9],
            ids: vec![0; 512 * 2],
            pool: vec![0; 8_192],
        }
    }
}

#[derive(Default)]
pub struct Tables {
    rows: Rows,
    own: Laid,
    work: Rows,
}

/// A range: the bytes of its keys, and the numbers of its bounds.
pub struct Range(Vec<u8>, [u64; 6]);

/// From one key to before another.
pub fn range(from: &[u8], to: &[u8]) -> Range {
    let (a, b) = (from.len() as u64, to.len() as u64);
    Range([from, to].concat(), [1, 0, a, 2, a, b])
}

/// Tables to be read, as arguments.
macro_rules! given {
    ($call:path, $tables:expr, $($last:expr),*) => {
        $call(
            &$tables.own.tree, &$tables.own.rest, $tables.own.tick,
            $tables.rows.segments.as_ptr(), $tables.rows.segments.len(),
            $tables.rows.views.as_ptr(), $tables.rows.views.len(),
            $tables.rows.runs.as_ptr(), $tables.rows.runs.len(),
            $tables.rows.borrows.as_ptr(), $tables.rows.borrows.len(),
            $tables.rows.ids.as_ptr(), $tables.rows.ids.len(),
            $tables.rows.pool.as_ptr(), $tables.rows.pool.len(),
            $($last,)*
        )
    };
}

// SAFETY, of every call here: each pointer and length is that of a slice which outlives the call, and those that are written are
// vectors of their own.
impl Tables {
    pub fn of(manifest: &[u8]) -> Tables {
        let mut tables = Tables::default();
        assert!(tables.read(manifest), "it is lawful");
        tables
    }

    /// Whether there is such a manifest; it is in the tables then.
    pub fn read(&mut self, manifest: &[u8]) -> bool {
        let (work, rows) = (&mut self.work, &mut self.rows);
        self.own = unsafe {
            c::tables_read(
                manifest.as_ptr(), manifest.len(),
                work.segments.as_mut_ptr(), work.segments.len(),
                work.views.as_mut_ptr(), work.views.len(),
                work.runs.as_mut_ptr(), work.runs.len(),
                work.borrows.as_mut_ptr(), work.borrows.len(),
                work.ids.as_mut_ptr(), work.ids.len(),
                rows.segments.as_mut_ptr(), rows.segments.len(),
                rows.views.as_mut_ptr(), rows.views.len(),
                rows.runs.as_mut_ptr(), rows.runs.len(),
                rows.borrows.as_mut_ptr(), rows.borrows.len(),
                rows.ids.as_mut_ptr(), rows.ids.len(),
                rows.pool.as_mut_ptr(), rows.pool.len(),
            )
        };
        self.own.answer.number == 0
    }

    /// How many bytes were written, 0 for a refusal.
    pub fn write(&self, out: &mut [u8]) -> usize {
        let answer = unsafe { given!(c::tables_write, self, out.as_mut_ptr(), out.len()) };
        usize::from(answer.number == 0) * answer.first
    }

    /// Whether there is a tree.
    pub fn lookup(&self, prefix: &[u8]) -> bool {
        let answer = unsafe { given!(c::tables_lookup, self, prefix.as_ptr(), prefix.len()) };
        answer.number == 0 && answer.first != 2
    }

    /// How many segments have keys in the range.
    pub fn select(&self, Range(args, numbers): &Range) -> usize {
        let answer = unsafe { given!(c::tables_select, self, args.as_ptr(), args.len(), numbers) };
        assert_eq!(answer.number, 0, "it is lawful");
        answer.third - answer.second
    }

    /// Whether the prefix went in, or was there. The manifest with it is laid into other tables, so that the call can be made again.
    pub fn insert(&mut self, prefix: &[u8]) -> bool {
        let laid = unsafe {
            given!(
                c::tables_insert, self, prefix.as_ptr(), prefix.len(),
                self.work.segments.as_mut_ptr(), self.work.segments.len(),
                self.work.views.as_mut_ptr(), self.work.views.len(),
                self.work.runs.as_mut_ptr(), self.work.runs.len(),
                self.work.borrows.as_mut_ptr(), self.work.borrows.len(),
                self.work.ids.as_mut_ptr(), self.work.ids.len(),
                self.work.pool.as_mut_ptr(), self.work.pool.len()
            )
        };
        laid.answer.number == 0
    }
}
