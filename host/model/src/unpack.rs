//! The record in a parsed value, or refusal 19. Each function asks for the value's own shape before it looks inside, so the
//! first refusal met is the first wrong value in the bytes.

use crate::keys::{Bound, Key, Range};
use crate::parse::{Kind, Value};
use crate::records::{Borrow, Bytes16, Manifest, Run, Segment, SstId, Tree, View, ViewId};
use crate::{Outcome, Refused};

impl Value {
    fn wrong<T>(&self) -> Outcome<T> {
        Err(Refused(19, self.at))
    }

    /// A record of `count` fields: "further elements after the named ones are skipped".
    fn record(&self, count: usize) -> Outcome<&[Value]> {
        match &self.kind {
            Kind::Array(values) if values.len() >= count => Ok(values),
            _ => self.wrong(),
        }
    }

    fn list<T>(&self, element: impl Fn(&Value) -> Outcome<T>) -> Outcome<Vec<T>> {
        match &self.kind {
            Kind::Array(values) => values.iter().map(element).collect(),
            _ => self.wrong(),
        }
    }

    /// "Absent is nil."
    fn optional<T>(&self, present: impl Fn(&Value) -> Outcome<T>) -> Outcome<Option<T>> {
        match self.kind {
            Kind::Nil => Ok(None),
            _ => present(self).map(Some),
        }
    }

    fn boolean(&self) -> Outcome<bool> {
        match self.kind {
            Kind::Bool(value) => Ok(value),
            _ => self.wrong(),
        }
    }

    /// A number that its field can hold.
    fn number<T: TryFrom<i128>>(&self) -> Outcome<T> {
        match self.kind {
            Kind::Int(value) => T::try_from(value).or_else(|_| self.wrong()),
            _ => self.wrong(),
        }
    }

    fn bytes(&self) -> Outcome<Key> {
        match &self.kind {
            Kind::Bin(bytes) => Ok(bytes.clone()),
            _ => self.wrong(),
        }
    }

    fn bytes16(&self) -> Outcome<Bytes16> {
        self.bytes()?.try_into().or_else(|_| self.wrong())
    }

    fn view_id(&self) -> Outcome<ViewId> {
        self.bytes16().map(ViewId)
    }

    fn sst_id(&self) -> Outcome<SstId> {
        self.bytes16().map(SstId)
    }

    fn bound(&self) -> Outcome<Bound> {
        if let Kind::Nil = self.kind {
            return Ok(Bound::Unbounded);
        }
        let fields = self.record(2)?;
        let kind = match fields[0].kind {
            Kind::Int(0) => Bound::Included,
            Kind::Int(1) => Bound::Excluded,
            _ => return fields[0].wrong(),
        };
        Ok(kind(fields[1].bytes()?))
    }

    pub fn range(&self) -> Outcome<Range> {
        let fields = self.record(2)?;
        Ok(Range { start: fields[0].bound()?, end: fields[1].bound()? })
    }

    fn view(&self) -> Outcome<View> {
        let fields = self.record(5)?;
        Ok(View {
            id: fields[0].view_id()?,
            sst: fields[1].sst_id()?,
            first: fields[2].bytes()?,
            last: fields[3].optional(Value::bytes)?,
            visible: fields[4].optional(Value::range)?,
        })
    }

    fn run(&self) -> Outcome<Run> {
        let fields = self.record(2)?;
        Ok(Run { id: fields[0].number()?, views: fields[1].list(Value::view)? })
    }

    fn tree(&self) -> Outcome<Tree> {
        let fields = self.record(4)?;
        Ok(Tree {
            view_watermark: fields[0].optional(Value::view_id)?,
            sst_watermark: fields[1].optional(Value::sst_id)?,
            l0: fields[2].list(Value::view)?,
            runs: fields[3].list(Value::run)?,
        })
    }

    fn segment(&self) -> Outcome<Segment> {
        let fields = self.record(2)?;
        Ok(Segment { prefix: fields[0].bytes()?, tree: fields[1].tree()? })
    }

    fn borrow(&self) -> Outcome<Borrow> {
        let fields = self.record(4)?;
        Ok(Borrow {
            path: fields[0].bytes()?,
            source: fields[1].bytes16()?,
            last: fields[2].optional(Value::bytes16)?,
            ids: fields[3].list(Value::sst_id)?,
        })
    }

    pub fn manifest(&self) -> Outcome<Manifest> {
        let fields = self.record(12)?;
        Ok(Manifest {
            initialized: fields[0].boolean()?,
            tree: fields[1].tree()?,
            segments: fields[2].list(Value::segment)?,
            extractor: fields[3].optional(Value::bytes)?,
            next_wal_sst_id: fields[4].number()?,
            replay_after_wal_id: fields[5].number()?,
            last_l0_clock_tick: fields[6].number()?,
            last_l0_seq: fields[7].number()?,
            recent_snapshot_min_seq: fields[8].number()?,
            borrows: fields[9].list(Value::borrow)?,
            writer_epoch: fields[10].number()?,
            compactor_epoch: fields[11].number()?,
        })
    }
}
