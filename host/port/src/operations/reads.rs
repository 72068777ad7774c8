//! Operations that need the working tables alone: read, lookup, select.

use crate::host::Host;
use crate::promises::{refusal, wrote, Told};
use crate::range::Range;
use crate::slices::call;
use crate::words::Room;
use manifest::c;

impl Host {
    pub fn read(&mut self, manifest: &[u8], room: &Room) -> Told {
        let s = manifest;
        let (answer, result) = self.written(
            s.len(),
            |answer| answer.first,
            |rows, out| call!(c::manifest_read, [s.as_ptr(), s.len(), room,] rows rows, out),
        )?;
        wrote(answer, &result)
    }

    pub fn lookup(&mut self, manifest: &[u8], prefix: &[u8]) -> Told {
        let (s, p) = (manifest, prefix);
        let answer = self
            .told(|rows| call!(c::manifest_lookup, [s.as_ptr(), s.len(), p.as_ptr(), p.len(),] rows rows))?;
        match (answer.number, answer.first, answer.second, answer.third) {
            (0, 0, 0, 0) => Ok("ok unsegmented".to_string()),
            (0, 1, index, 0) => Ok(format!("ok segment {index}")),
            (0, 2, 0, 0) => Ok("ok absent".to_string()),
            _ => refusal(answer),
        }
    }

    pub fn select(&mut self, manifest: &[u8], args: &[u8], range: &Range) -> Told {
        let (s, a) = (manifest, args);
        let answer = self.told(
            |rows| call!(c::manifest_select, [s.as_ptr(), s.len(), a.as_ptr(), a.len(), range,] rows rows),
        )?;
        match (answer.number, answer.first, answer.second, answer.third) {
            (0, 0, 0, 0) => Ok("ok unsegmented".to_string()),
            (0, 1, from, to) => Ok(format!("ok window {from} {to}")),
            _ => refusal(answer),
        }
    }
}
