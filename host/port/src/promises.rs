//! What a call promises of its answer and of what it was lent. Some calls are made again, to see that they keep it in other
//! places too: where a result just fits, where it does not, and where a table is too short.

use crate::host::Host;
use crate::lent::Lent;
use crate::slices::{shorten, Results, Rows, Slice};
use crate::words::hex;
use manifest::c::Answer;
use manifest::ENCODED;

/// A promise that was not kept.
pub struct Broken(pub &'static str);

pub type Told = Result<String, Broken>;

pub const NO_ROOM: Answer = Answer { number: 4, first: 0, second: 0, third: 0 };

pub fn require(kept: bool, why: &'static str) -> Result<(), Broken> {
    if kept {
        Ok(())
    } else {
        Err(Broken(why))
    }
}

pub fn refusal(answer: Answer) -> Told {
    let plain = answer.number != 0 && (answer.second, answer.third) == (0, 0);
    require(plain, "numbers that are no answer of this call")?;
    Ok(format!("refused {} at {}", answer.number, answer.first))
}

/// The answer of a call that says nothing but how long its result is.
pub fn wrote(answer: Answer, result: &[u8]) -> Told {
    match (answer.number, answer.second, answer.third) {
        (0, 0, 0) => Ok(format!("ok {}", hex(result))),
        _ => refusal(answer),
    }
}

/// The answer, and what it says is in the output: so many cells of those lent.
pub fn result<T: Copy + PartialEq>(
    answer: Answer,
    out: &Lent<T>,
    filled: usize,
) -> Result<(Answer, Vec<T>), Broken> {
    if answer.number != 0 {
        require(out.kept_from(0), "a refused call changed the output")?;
        return Ok((answer, vec![]));
    }
    require(filled <= out.cells().len(), "a result longer than its place")?;
    require(out.kept_from(filled), "the output changed past the result")?;
    Ok((answer, out.cells()[..filled].to_vec()))
}

impl Host {
    /// A call that fills no output.
    pub fn told(&mut self, call: impl Fn(&Rows) -> Answer) -> Result<Answer, Broken> {
        let answer = call(&self.rows());
        self.guarded()?;
        if self.probes() {
            let again = call(&self.rows());
            self.guarded()?;
            require(again == answer, "another answer to the same call")?;
            self.too_short(answer, |rows| call(rows))?;
        }
        Ok(answer)
    }

    /// A call whose result is written, and `long` is what its answer says of how long that is. It is lent
    /// what most results fit in, some more than was given, and if that is too little the most that any has.
    pub fn written(
        &mut self,
        given: usize,
        long: impl Fn(Answer) -> usize,
        call: impl Fn(&Rows, &Slice<u8>) -> Answer,
    ) -> Result<(Answer, Vec<u8>), Broken> {
        let most = if self.answered % 16 == 2 { ENCODED } else { ENCODED.min(given + 2_000) };
        let (mut answer, mut result) = self.into(most, &long, &call)?;
        if answer == NO_ROOM && most < ENCODED {
            (answer, result) = self.into(ENCODED, &long, &call)?;
        }
        if self.probes() {
            let length = if answer.number == 0 { long(answer) } else { ENCODED / 2 };
            let fitting = self.into(length, &long, &call)?;
            require(fitting == (answer, result.clone()), "another answer into a place that just fits")?;
            if answer.number == 0 && length > 0 {
                let (short, _) = self.into(length - 1, &long, &call)?;
                require(short == NO_ROOM, "no refusal 4 for a place that is one byte too short")?;
            }
            let out = Slice::of(self.out.filled(ENCODED));
            self.too_short(answer, |rows| call(rows, &out))?;
            require(self.out.kept_from(0), "a refused call changed the output")?;
        }
        Ok((answer, result))
    }

    /// The answer, and what was written into so many bytes.
    fn into(
        &mut self,
        length: usize,
        long: impl Fn(Answer) -> usize,
        call: impl Fn(&Rows, &Slice<u8>) -> Answer,
    ) -> Result<(Answer, Vec<u8>), Broken> {
        let rows = self.rows();
        let answer = call(&rows, &Slice::of(self.out.filled(length)));
        self.guarded()?;
        result(answer, &self.out, long(answer))
    }

    /// Whether a call that was answered so is told this where a working table is too short.
    fn fits(&self, answer: Answer, told: Answer) -> bool {
        let early = answer.number == 2 && told == answer;
        early || told == NO_ROOM && (answer.number != 2 || self.late)
    }

    /// One of the working tables a word too short: 4 before the manifest is looked at, and after 2.
    pub fn too_short(&mut self, answer: Answer, call: impl Fn(&Rows) -> Answer) -> Result<(), Broken> {
        let short = self.turn(5);
        let rows = shorten(&mut self.rows, short);
        let told = call(&rows);
        require(self.fits(answer, told), "no refusal 4 for a working table that is too short")?;
        self.guarded()
    }

    /// The same of a call that was lent some other table too short; `why` says which was overlooked.
    pub fn other_too_short(
        &mut self,
        answer: Answer,
        why: &'static str,
        call: impl Fn(&Rows, &Slice<u8>) -> Answer,
    ) -> Result<(), Broken> {
        let (rows, out) = (self.rows(), Slice::of(self.out.filled(ENCODED)));
        let told = call(&rows, &out);
        require(self.fits(answer, told), why)?;
        require(self.out.kept_from(0), "a refused call changed the output")?;
        self.guarded()
    }

    /// One of the tables of its result a cell too short.
    pub fn result_too_short(
        &mut self,
        answer: Answer,
        call: impl Fn(&Results, &Rows, &Slice<u8>) -> Answer,
    ) -> Result<(), Broken> {
        let short = self.short_results();
        let why = "no refusal 4 for a result table that is too short";
        self.other_too_short(answer, why, |rows, out| call(&short, rows, out))
    }

    /// A call that was answered 16: 4 for the output comes before it.
    pub fn room_before_fresh(&mut self, call: impl Fn(&Rows, &Slice<u8>) -> Answer) -> Result<(), Broken> {
        let (none, _) = self.into(0, |answer| answer.first, call)?;
        require(none == NO_ROOM, "no refusal 4 for an output of no byte")
    }
}
