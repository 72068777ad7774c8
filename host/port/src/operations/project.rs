//! Projection, and what it is asked for.

use crate::given::Given;
use crate::host::Host;
use crate::promises::{refusal, Told};
use crate::range::{range, Range};
use crate::slices::{call, Results, Rows, Slice};
use crate::words::{self, filter, hex, Room};
use manifest::c;

/// What a projection is asked for: flags and a mask, the global range, the own ranges, over these bytes.
#[derive(Default)]
pub struct Wanted {
    asked: [u64; 5],
    global: Range,
    own: Vec<u64>,
    args: Vec<u8>,
}

impl Wanted {
    /// The words of a call.
    pub fn of(global: &str, kept: &str, own: &str) -> Option<Wanted> {
        let mut wanted = Wanted::default();
        if global != "." {
            wanted.asked[0] = 1;
            wanted.global = wanted.range(global)?;
        }
        if let Some((flag, mask)) = filter(kept)? {
            wanted.asked[1..4].copy_from_slice(&[1, flag, mask]);
        }
        if own != "." {
            wanted.asked[4] = 1;
            for entry in own.split(',') {
                let row = if entry == "." { Range::default() } else { wanted.range(entry)? };
                wanted.own.extend(row);
            }
        }
        Some(wanted)
    }

    /// A RANGE word, its bytes behind those so far.
    fn range(&mut self, word: &str) -> Option<Range> {
        let bytes = words::bytes(word)?;
        let mut row = range(&bytes)?;
        for place in [1, 4] {
            if row[place - 1] != 0 {
                row[place] += self.args.len() as u64;
            }
        }
        self.args.extend(bytes);
        Some(row)
    }
}

impl Host {
    pub fn project(&mut self, manifest: &[u8], wanted: &Wanted, room: &Room) -> Told {
        let (s, a, own) = (manifest, Given::of(&wanted.args), Given::of(&wanted.own));
        let (asked, global) = (Given::of(&wanted.asked), Given::of(&wanted.global));
        let call = |to: &Results, behind: &Slice<u8>, used: &Slice<u64>, rows: &Rows, out: &Slice<u8>| {
            call!(
                c::manifest_project,
                [
                    s.as_ptr(), s.len(), a.as_ptr(), a.len(), asked.array(), global.array(),
                    own.as_ptr(), own.len(), room,
                ]
                rows rows, rows to.rows, behind, used, to.pool, out
            )
        };
        self.late = wanted.asked[4] == 1;
        let (to, behind, used) = (self.results(), self.behind(a.len()), self.used());
        let (answer, result) =
            self.written(s.len(), |answer| answer.second, |rows, out| call(&to, &behind, &used, rows, out))?;
        if self.probes() {
            self.result_too_short(answer, |to, rows, out| call(to, &behind, &used, rows, out))?;
        }
        match (answer.number, answer.third) {
            (0, 0) => Ok(format!("ok {} {}", answer.first, hex(&result))),
            _ => refusal(answer),
        }
    }
}
