//! Insert: a prefix that is held, or enters.

use crate::host::Host;
use crate::promises::{refusal, Told};
use crate::slices::{call, Results, Rows, Slice};
use crate::words::{hex, Room};
use manifest::c;

impl Host {
    pub fn insert(&mut self, manifest: &[u8], prefix: &[u8], room: &Room) -> Told {
        let (s, p) = (manifest, prefix);
        let call = |to: &Results, rows: &Rows, out: &Slice<u8>| {
            call!(
                c::manifest_insert,
                [s.as_ptr(), s.len(), p.as_ptr(), p.len(), room,]
                rows rows, rows to.rows, to.pool, out
            )
        };
        let to = self.results();
        let (answer, result) =
            self.written(s.len(), |answer| answer.third, |rows, out| call(&to, rows, out))?;
        if self.probes() {
            self.result_too_short(answer, call)?;
        }
        match (answer.number, answer.first, answer.second, answer.third) {
            (0, 0, index, 0) => Ok(format!("ok found {index}")),
            (0, 1, index, _) => Ok(format!("ok entered {index} {}", hex(&result))),
            _ => refusal(answer),
        }
    }
}
