//! The calls that went somewhere new, and what is taken from them to make others.

use crate::coverage::Coverage;
use calls::{decode, from_hex, Random, Value};
use differ::judge::operation;
use std::collections::{BTreeMap, BTreeSet};

pub struct Corpus {
    /// The calls of each operation that the port has.
    calls: BTreeMap<&'static str, Vec<String>>,
    pub coverage: Coverage,
    kinds: BTreeSet<(String, String)>,
}

impl Corpus {
    pub fn new(operations: &[&'static str], coverage: Coverage) -> Corpus {
        let calls = operations.iter().map(|operation| (*operation, vec![])).collect();
        Corpus { calls, coverage, kinds: BTreeSet::new() }
    }

    pub fn len(&self) -> usize {
        self.calls.values().map(Vec::len).sum()
    }

    pub fn operations(&self) -> Vec<&'static str> {
        self.calls.keys().copied().collect()
    }

    /// Keeps a call that went over an edge as none did before, or was answered in a new way. One that is no call is not
    /// kept, since what is made of it is none either.
    pub fn offer(&mut self, call: &str, seen: &[(u32, u8)], kind: String) {
        let name = operation(call);
        let called = kind != "unknown";
        let new = self.coverage.adds(seen) | self.kinds.insert((name.to_string(), kind)) && called;
        if let Some(calls) = self.calls.get_mut(name).filter(|_| new) {
            calls.push(call.to_string());
        }
    }

    /// A call of this operation: new ones and short ones more often.
    pub fn pick(&self, random: &mut Random, operation: &str) -> Option<&String> {
        let calls = self.calls.get(operation).filter(|calls| !calls.is_empty())?;
        let mut any = || {
            let among = if random.chance(40) { calls.len().div_ceil(5) } else { calls.len() };
            &calls[calls.len() - 1 - random.below(among)]
        };
        let (one, other) = (any(), any());
        Some(if one.len() < other.len() { one } else { other })
    }

    /// A word or a part of a word of some call, of this form.
    pub fn part(&self, random: &mut Random, wanted: Form) -> Option<&str> {
        let operation = random.pick(&self.operations());
        let parts = self.pick(random, operation)?.split([' ', ',', ':']).skip(1);
        let parts: Vec<&str> = parts.filter(|part| Form::of(part) == wanted).collect();
        (!parts.is_empty()).then(|| random.pick(&parts))
    }

    /// A manifest that stands in some call, as far as it can be taken apart.
    pub fn record(&self, random: &mut Random) -> Option<Value> {
        decode(&from_hex(self.part(random, Form::Record)?)?)
    }

    /// Calls that together go over every edge that all of them went over, however often: short ones first, and long ones not.
    pub fn distilled(&self, run: impl Fn(&str) -> (Vec<(u32, u8)>, String)) -> Vec<String> {
        let mut calls: Vec<&String> =
            self.calls.values().flatten().filter(|call| call.len() <= 4_000).collect();
        calls.sort_by_key(|call| (call.len(), call.to_string()));
        let coverage = Coverage::new().expect("it was there before");
        let mut kept = Corpus::new(&self.operations(), coverage);
        for call in calls {
            let (mut seen, kind) = run(call);
            seen.iter_mut().for_each(|(_, magnitudes)| *magnitudes = 1);
            kept.offer(call, &seen, kind);
        }
        kept.calls.into_values().flatten().collect()
    }
}

/// What a part of a word may stand for.
#[derive(Clone, Copy, Debug, PartialEq)]
pub enum Form {
    Record,
    Range,
    Id,
    Bytes,
    /// A dot, a flag, a number.
    Other,
}

impl Form {
    pub fn of(part: &str) -> Form {
        let Some(bytes) = from_hex(part) else { return Form::Other };
        match (bytes.len(), bytes.first()) {
            (16, _) => Form::Id,
            (_, Some(0x92)) => Form::Range,
            (_, Some(0x90..=0x9f | 0xdc | 0xdd)) => Form::Record,
            // A flag before a mask.
            _ if part.len() == 1 => Form::Other,
            _ => Form::Bytes,
        }
    }
}
