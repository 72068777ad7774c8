//! Union, and its sources.

use crate::given::Given;
use crate::host::Host;
use crate::promises::{wrote, Told};
use crate::slices::{call, All, Rows, Slice};
use crate::words::{self, id, Room};
use manifest::c;

/// The sources of a union: manifests, paths and checkpoints, each one after the other, and where each of the first two ends.
#[derive(Default)]
pub struct Sources {
    manifests: Vec<u8>,
    ends: Vec<u64>,
    paths: Vec<u8>,
    path_ends: Vec<u64>,
    checkpoints: Vec<u64>,
}

impl Sources {
    /// The words of a call.
    pub fn of(words: &[&str]) -> Option<Sources> {
        let mut sources = Sources::default();
        for word in words {
            let parts: Vec<&str> = word.split(':').collect();
            let [manifest, path, checkpoint] = parts[..] else { return None };
            sources.manifests.extend(words::bytes(manifest)?);
            sources.ends.push(sources.manifests.len() as u64);
            sources.paths.extend(words::bytes(path)?);
            sources.path_ends.push(sources.paths.len() as u64);
            sources.checkpoints.extend(id(checkpoint)?);
        }
        Some(sources)
    }
}

impl Host {
    pub fn union(&mut self, fresh: &[u64], given: &Sources, room: &Room) -> Told {
        let (s, ends) = (Given::of(&given.manifests), Given::of(&given.ends));
        let (paths, path_ends) = (Given::of(&given.paths), Given::of(&given.path_ends));
        let checkpoints = Given::of(&given.checkpoints);
        let call = |all: &All, pool: &Slice<u8>, rows: &Rows, out: &Slice<u8>| {
            call!(
                c::manifest_union,
                [
                    s.as_ptr(), s.len(), ends.as_ptr(), ends.len(), paths.as_ptr(), paths.len(),
                    path_ends.as_ptr(), path_ends.len(), checkpoints.as_ptr(), checkpoints.len(),
                    fresh.as_ptr(), fresh.len(), room,
                ]
                rows rows, rows all.sources.rows, all.sources.pool, all.fresh, all.sets, pool, out
            )
        };
        self.hold_fresh(fresh.len());
        let (all, pool) = (self.all(paths.len()), self.results().pool);
        let (answer, result) =
            self.written(s.len(), |answer| answer.first, |rows, out| call(&all, &pool, rows, out))?;
        if self.probes() {
            let (all, pool) = self.short_all();
            let why = "no refusal 4 for a table of all sources that is too short";
            self.other_too_short(answer, why, |rows, out| call(&all, &pool, rows, out))?;
            if answer.number == 16 {
                let (all, pool) = (self.all(paths.len()), self.results().pool);
                self.room_before_fresh(|rows, out| call(&all, &pool, rows, out))?;
            }
        }
        wrote(answer, &result)
    }
}
