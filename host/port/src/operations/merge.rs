//! Both merges, which differ in their entry point alone.

use crate::host::Host;
use crate::promises::{wrote, Told};
use crate::slices::{call, Results, Rows, Slice};
use crate::words::Room;
use manifest::c::Merge;

impl Host {
    pub fn merge(&mut self, entry: Merge, writer: &[u8], compactor: &[u8], room: &Room) -> Told {
        let call = |both: &Results, pool: &Slice<u8>, rows: &Rows, out: &Slice<u8>| {
            call!(
                entry,
                [writer.as_ptr(), writer.len(), compactor.as_ptr(), compactor.len(), room,]
                rows rows, rows both.rows, both.pool, pool, out
            )
        };
        let (both, pool) = (self.both(), self.results().pool);
        let given = writer.len() + compactor.len();
        let (answer, result) =
            self.written(given, |answer| answer.first, |rows, out| call(&both, &pool, rows, out))?;
        if self.probes() {
            let (both, pool) = self.short_both();
            let why = "no refusal 4 for a table of both that is too short";
            self.other_too_short(answer, why, |rows, out| call(&both, &pool, rows, out))?;
        }
        wrote(answer, &result)
    }
}
