//! Owned ids, and clone.

use crate::host::{Host, PLACES};
use crate::promises::{refusal, require, result, wrote, Broken, Told, NO_ROOM};
use crate::slices::{call, Results, Rows, Slice};
use crate::words::{list, Room};
use manifest::c::{self, Answer};

impl Host {
    /// The ids are words, so their output is another than that of encoded results; the room says how many places it has.
    pub fn owned(&mut self, manifest: &[u8], room: &Room) -> Told {
        let places = usize::try_from(room[4]).map_or(PLACES, |places| places.min(PLACES));
        // An odd word at the end is no place.
        let odd = usize::from(self.answered % 2 == 1);
        let (answer, words) = self.owned_into(2 * places + odd, manifest)?;
        if self.probes() {
            let length = 2 * if answer.number == 0 { answer.first } else { places };
            let fitting = self.owned_into(length, manifest)?;
            require(fitting == (answer, words.clone()), "another answer into a place that just fits")?;
            if answer.number == 0 && length > 0 {
                let (short, _) = self.owned_into(length - 1, manifest)?;
                require(short == NO_ROOM, "no refusal 4 for a place that is one word too short")?;
            }
            let out = Slice::of(self.ids.filled(2 * PLACES));
            self.too_short(answer, |rows| owned_call(manifest, rows, &out))?;
            require(self.ids.kept_from(0), "a refused call changed the output")?;
        }
        match (answer.number, answer.second, answer.third) {
            (0, 0, 0) => Ok(format!("ok {}", list(&words))),
            _ => refusal(answer),
        }
    }

    /// The answer, and the ids laid into so many words.
    fn owned_into(&mut self, length: usize, manifest: &[u8]) -> Result<(Answer, Vec<u64>), Broken> {
        let rows = self.rows();
        let answer = owned_call(manifest, &rows, &Slice::of(self.ids.filled(length)));
        self.guarded()?;
        result(answer, &self.ids, answer.first.saturating_mul(2))
    }

    pub fn cloned(
        &mut self,
        manifest: &[u8],
        path: &[u8],
        checkpoint: &[u64; 2],
        fresh: &[u64],
        room: &Room,
    ) -> Told {
        let (s, p, f) = (manifest, path, fresh);
        let call = |to: &Results, rows: &Rows, out: &Slice<u8>| {
            call!(
                c::manifest_clone,
                [s.as_ptr(), s.len(), p.as_ptr(), p.len(), checkpoint, f.as_ptr(), f.len(), room,]
                rows rows, rows to.rows, to.pool, out
            )
        };
        let to = self.results();
        let (answer, result) =
            self.written(s.len(), |answer| answer.first, |rows, out| call(&to, rows, out))?;
        if self.probes() {
            self.result_too_short(answer, call)?;
            if answer.number == 16 {
                self.room_before_fresh(|rows, out| call(&to, rows, out))?;
            }
        }
        wrote(answer, &result)
    }
}

fn owned_call(manifest: &[u8], rows: &Rows, out: &Slice<u64>) -> Answer {
    call!(c::manifest_owned, [manifest.as_ptr(), manifest.len(),] rows rows, out)
}
