//! The operations: each is one call of an entry point, in lent memory.

use crate::c;
use crate::lent::{All, Lent, POOL, SOURCES};
use crate::numbers::{halves, joined, range, words};
use crate::refusal::{good, Refusal};
use crate::values::{Filter, Insertion, Projection, Room, Selection, Source, Tree};
use std::ops::Bound;

/// An entry point on what it is given to read, and then on the vectors that it may write: `rows` stands before the five of a manifest.
macro_rules! call {
    ($entry:path, [$($told:tt)*]) => {
        // SAFETY: every pointer and length is that of a slice which outlives the call; those that are written are fields of
        // the caller's own memory, each its own vector.
        good(unsafe { $entry($($told)*) })
    };
    ($entry:path, [$($told:tt)*] rows $rows:expr $(, $($rest:tt)*)?) => {
        call!(
            $entry,
            [$($told)*]
            $rows.segments, $rows.views, $rows.runs, $rows.borrows, $rows.ids $(, $($rest)*)?
        )
    };
    ($entry:path, [$($told:tt)*] $table:expr $(, $($rest:tt)*)?) => {
        call!($entry, [$($told)* $table.as_mut_ptr(), $table.len(),] $($($rest)*)?)
    };
}

impl Lent {
    /// The manifest written anew, in the shortest forms.
    pub fn read(&mut self, manifest: &[u8], room: &Room) -> Result<&[u8], Refusal> {
        let room = room.numbers();
        let answer = call!(
            c::manifest_read,
            [manifest.as_ptr(), manifest.len(), &room,]
            rows self.work, self.out
        )?;
        Ok(&self.out[..answer.first])
    }

    /// The tree of a prefix.
    pub fn lookup(&mut self, manifest: &[u8], prefix: &[u8]) -> Result<Tree, Refusal> {
        let answer = call!(
            c::manifest_lookup,
            [manifest.as_ptr(), manifest.len(), prefix.as_ptr(), prefix.len(),]
            rows self.work
        )?;
        Ok(match answer.first {
            0 => Tree::Unsegmented,
            1 => Tree::Segment(answer.second),
            _ => Tree::Absent,
        })
    }

    /// The segments with some key in a range.
    pub fn select(
        &mut self,
        manifest: &[u8],
        start: Bound<&[u8]>,
        end: Bound<&[u8]>,
    ) -> Result<Selection, Refusal> {
        let mut args = vec![];
        let range = range((start, end), &mut args);
        let answer = call!(
            c::manifest_select,
            [manifest.as_ptr(), manifest.len(), args.as_ptr(), args.len(), &range,]
            rows self.work
        )?;
        Ok(match answer.first {
            0 => Selection::Unsegmented,
            _ => Selection::Window(answer.second..answer.third),
        })
    }

    /// The segment of a prefix: found where it is held, else entered with an empty tree.
    pub fn insert(&mut self, manifest: &[u8], prefix: &[u8], room: &Room) -> Result<Insertion<'_>, Refusal> {
        let room = room.numbers();
        let answer = call!(
            c::manifest_insert,
            [manifest.as_ptr(), manifest.len(), prefix.as_ptr(), prefix.len(), &room,]
            rows self.work, rows self.result.rows, self.result.pool, self.out
        )?;
        Ok(match answer.first {
            0 => Insertion::Found(answer.second),
            _ => Insertion::Entered(answer.second, &self.out[..answer.third]),
        })
    }

    /// The writer's segments, each merged with the compactor's: the encoded list.
    pub fn merge_from_writer(
        &mut self,
        writer: &[u8],
        compactor: &[u8],
        room: &Room,
    ) -> Result<&[u8], Refusal> {
        self.merge(c::manifest_merge_from_writer, writer, compactor, room)
    }

    /// The segments of either that are not empty once merged.
    pub fn merge_from_compactor(
        &mut self,
        writer: &[u8],
        compactor: &[u8],
        room: &Room,
    ) -> Result<&[u8], Refusal> {
        self.merge(c::manifest_merge_from_compactor, writer, compactor, room)
    }

    fn merge(
        &mut self,
        entry: c::Merge,
        writer: &[u8],
        compactor: &[u8],
        room: &Room,
    ) -> Result<&[u8], Refusal> {
        let room = room.numbers();
        let answer = call!(
            entry,
            [writer.as_ptr(), writer.len(), compactor.as_ptr(), compactor.len(), &room,]
            rows self.work, rows self.both.rows, self.both.pool, self.result.pool, self.out
        )?;
        Ok(&self.out[..answer.first])
    }

    /// The manifest narrowed, and how many segments the filter names.
    pub fn project(
        &mut self,
        manifest: &[u8],
        wanted: &Projection<'_>,
        room: &Room,
    ) -> Result<(usize, &[u8]), Refusal> {
        let room = room.numbers();
        let mut args = vec![];
        let global = wanted.global.map_or([0; 6], |keys| range(keys, &mut args));
        let own: Vec<u64> =
            wanted.own.unwrap_or(&[]).iter().flat_map(|keys| range(*keys, &mut args)).collect();
        let filter = wanted.filter.unwrap_or(Filter { unsegmented: false, segments: 0 });
        let asked = [
            wanted.global.is_some().into(),
            wanted.filter.is_some().into(),
            filter.unsegmented.into(),
            filter.segments,
            wanted.own.is_some().into(),
        ];
        self.behind.resize(args.len() + POOL, 0);
        let answer = call!(
            c::manifest_project,
            [
                manifest.as_ptr(), manifest.len(), args.as_ptr(), args.len(), &asked, &global,
                own.as_ptr(), own.len(), &room,
            ]
            rows self.work, rows self.result.rows, self.behind, self.used, self.result.pool, self.out
        )?;
        Ok((answer.first, &self.out[..answer.second]))
    }

    /// The SST ids that the manifest uses and borrows from no one, in record order, repeats kept.
    pub fn owned(&mut self, manifest: &[u8], room: &Room) -> Result<Vec<u128>, Refusal> {
        let ids = &mut self.result.rows.ids;
        let places = ids.len().min(usize::try_from(room.ids).unwrap_or(usize::MAX).saturating_mul(2));
        let out = &mut ids[..places];
        let answer = call!(c::manifest_owned, [manifest.as_ptr(), manifest.len(),] rows self.work, out)?;
        let words = out.chunks_exact(2).take(answer.first);
        Ok(words.map(|id| u128::from(id[0]) << 64 | u128::from(id[1])).collect())
    }

    /// A manifest that borrows all it uses: from the parent at `path`, at `checkpoint`, or from those that the parent borrows from.
    /// It takes one fresh UUID for each of its borrows.
    pub fn cloned(
        &mut self,
        manifest: &[u8],
        path: &[u8],
        checkpoint: u128,
        fresh: &[u128],
        room: &Room,
    ) -> Result<&[u8], Refusal> {
        let room = room.numbers();
        let (checkpoint, fresh) = (halves(&checkpoint), words(fresh));
        let answer = call!(
            c::manifest_clone,
            [
                manifest.as_ptr(), manifest.len(), path.as_ptr(), path.len(), &checkpoint,
                fresh.as_ptr(), fresh.len(), &room,
            ]
            rows self.work, rows self.result.rows, self.result.pool, self.out
        )?;
        Ok(&self.out[..answer.first])
    }

    /// The union of up to eight sources. It takes one fresh UUID for each of its borrows.
    pub fn union(&mut self, sources: &[Source<'_>], fresh: &[u128], room: &Room) -> Result<&[u8], Refusal> {
        let room = room.numbers();
        let (s, ends) = joined(sources.iter().map(|source| source.manifest));
        let (paths, path_ends) = joined(sources.iter().map(|source| source.path));
        let checkpoints = words(sources.iter().map(|source| &source.checkpoint));
        let fresh = words(fresh);
        let all = self.all.get_or_insert_with(All::default);
        // The paths stand before the sources' own bytes; behind the fresh UUIDs there is room for twice a manifest's borrows.
        all.sources.pool.resize(SOURCES * POOL + paths.len(), 0);
        all.fresh.resize(fresh.len() + 2 * 32, 0);
        let answer = call!(
            c::manifest_union,
            [
                s.as_ptr(), s.len(), ends.as_ptr(), ends.len(), paths.as_ptr(), paths.len(),
                path_ends.as_ptr(), path_ends.len(), checkpoints.as_ptr(), checkpoints.len(),
                fresh.as_ptr(), fresh.len(), &room,
            ]
            rows self.work, rows all.sources.rows, all.sources.pool, all.fresh, all.sets,
            self.result.pool, self.out
        )?;
        Ok(&self.out[..answer.first])
    }
}
