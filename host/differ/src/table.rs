//! The table of counts, and the least that a run must come to.

use calls::OPERATIONS;
use std::collections::BTreeMap;

#[derive(Default)]
pub struct Table {
    rows: BTreeMap<String, Row>,
}

#[derive(Default)]
struct Row {
    calls: usize,
    /// Answered by both, malformed calls apart.
    compared: usize,
    different: usize,
    /// Of those that were not skipped, by the answer's kind.
    kinds: BTreeMap<String, usize>,
    /// Of the skipped ones, by the kind of what the other answered.
    skipped: BTreeMap<String, usize>,
    /// Of an operation that one of them does not have.
    lacked: usize,
}

/// How a call counts.
#[derive(PartialEq)]
pub enum Count {
    Compared,
    /// The original has no counterpart of the answer.
    Skipped,
    /// One of the speakers does not have the operation.
    Lacked,
}

/// The refusals that each operation can give: those of the original, and those that are added to it.
/// Selection and lookup fill no output, and only union takes sources.
const REFUSALS: [(&str, &[u32], &[u32]); 10] = [
    ("read", &[], &[1, 2, 4, 18, 19]),
    ("lookup", &[], &[1, 2, 18, 19]),
    ("insert", &[3], &[1, 2, 4, 18, 19]),
    ("merge_from_writer", &[6], &[1, 2, 4, 18, 19]),
    ("merge_from_compactor", &[7], &[1, 2, 4, 18, 19]),
    ("select", &[], &[1, 2, 5, 18, 19]),
    ("project", &[8, 9], &[1, 2, 4, 5, 10, 18, 19]),
    ("owned", &[], &[1, 2, 4, 18, 19]),
    ("clone", &[15], &[1, 2, 4, 16, 18, 19]),
    ("union", &[11, 12, 13, 14, 15], &[1, 2, 4, 16, 18, 19]),
];

impl Table {
    pub fn compared(&self, operation: &str) -> usize {
        self.rows.get(operation).map_or(0, |row| row.compared)
    }

    pub fn count(&mut self, operation: &str, kind: String, count: Count, different: bool) {
        let name = if OPERATIONS.contains(&operation) { operation } else { "(none of these)" };
        let row = self.rows.entry(name.to_string()).or_default();
        row.calls += 1;
        row.different += usize::from(different);
        row.compared += usize::from(count == Count::Compared && kind != "unknown");
        let kinds = match count {
            Count::Compared => &mut row.kinds,
            Count::Skipped => &mut row.skipped,
            Count::Lacked => return row.lacked += 1,
        };
        *kinds.entry(kind).or_default() += 1;
    }

    pub fn different(&self) -> usize {
        self.rows.values().map(|row| row.different).sum()
    }

    pub fn print(&self) {
        let heads = [
            "operation",
            "calls",
            "compared",
            "different",
            "compared answers | skipped by one, answered so by another",
        ];
        println!("{:<21} {:>7} {:>9} {:>9}  {}", heads[0], heads[1], heads[2], heads[3], heads[4]);
        for (operation, row) in &self.rows {
            let list = |kinds: &BTreeMap<String, usize>| {
                let words = kinds
                    .iter()
                    .map(|(kind, count)| format!("{} {count}", kind.trim_start_matches("refused ")));
                words.collect::<Vec<_>>().join(", ")
            };
            let (kinds, skipped) = (list(&row.kinds), list(&row.skipped));
            let lacked = match row.lacked {
                0 => String::new(),
                count => format!(" | not there yet {count}"),
            };
            let (calls, compared, different) = (row.calls, row.compared, row.different);
            println!("{operation:<21} {calls:>7} {compared:>9} {different:>9}  {kinds} | {skipped}{lacked}");
        }
    }

    /// What falls short: too few compared, less than half of them ok, a refusal seen too rarely.
    pub fn shortfalls(&self, operations: &[&str], compared: usize, refusals: usize) -> Vec<String> {
        let mut short = vec![];
        for (operation, original, added) in REFUSALS.iter().filter(|(name, ..)| operations.contains(name)) {
            let none = Row::default();
            let row = self.rows.get(*operation).unwrap_or(&none);
            let count = |kinds: &BTreeMap<String, usize>, kind: &str| kinds.get(kind).copied().unwrap_or(0);
            if row.compared < compared {
                short.push(format!("{operation}: {} compared, not {compared}", row.compared));
            }
            let ok = count(&row.kinds, "ok");
            if 2 * ok < row.compared {
                short.push(format!("{operation}: {ok} of {} ok, less than half", row.compared));
            }
            for number in original.iter().chain(*added) {
                let kind = format!("refused {number}");
                let answered = count(&row.kinds, &kind);
                // An added one has been seen if the other answered it while the oracle skipped.
                let seen =
                    if added.contains(number) { answered + count(&row.skipped, &kind) } else { answered };
                if seen < refusals {
                    short.push(format!("{operation}: refusal {number} seen {seen} times, not {refusals}"));
                }
            }
        }
        short
    }
}
