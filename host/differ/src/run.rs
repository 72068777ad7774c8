//! A run: calls, answers, verdicts, the table, and the first difference made small.

use crate::judge::{judge, kind, operation, Verdict};
use crate::show::{show, show_answer};
use crate::shrink::shrink;
use crate::speaker::Speaker;
use crate::table::{Count, Table};
use calls::{History, OPERATIONS};
use std::slice::from_ref;

pub struct Run {
    speakers: Vec<Speaker>,
    pub table: Table,
    pub first: Option<String>,
}

/// So many calls are answered by one speaker before the next takes them.
const BATCH: usize = 1000;

impl Run {
    pub fn new(names: &[String]) -> Result<Run, String> {
        let speakers = names.iter().map(|name| Speaker::named(name)).collect::<Result<Vec<_>, _>>()?;
        Ok(Run { speakers, table: Table::default(), first: None })
    }

    /// The operations that every speaker has, in the protocol's order.
    pub fn operations(&self) -> Vec<&'static str> {
        let all_have =
            |operation: &&str| self.speakers.iter().all(|speaker| speaker.operations.contains(operation));
        OPERATIONS.into_iter().filter(all_have).collect()
    }

    /// Goes through the calls for as long as `more` says so, which is asked between batches.
    pub fn compare(&mut self, calls: &mut dyn Iterator<Item = String>, more: impl Fn(&Table) -> bool) {
        while more(&self.table) {
            let batch: Vec<String> = calls.take(BATCH).collect();
            if batch.is_empty() {
                return;
            }
            self.batch(&batch);
        }
    }

    /// The answers to each call, one a speaker, recorded.
    fn batch(&mut self, batch: &[String]) -> Vec<Vec<String>> {
        let columns: Vec<Vec<String>> = self.speakers.iter().map(|speaker| speaker.answers(batch)).collect();
        let rows: Vec<Vec<String>> =
            (0..batch.len()).map(|i| columns.iter().map(|answers| answers[i].clone()).collect()).collect();
        for (call, answers) in batch.iter().zip(&rows) {
            self.record(call, answers);
        }
        rows
    }

    /// Histories side by side: each result is the manifest of that history's next call.
    pub fn histories(&mut self, histories: &mut [History], calls: usize, more: impl Fn(&Table)) {
        for _ in 0..calls {
            let batch: Vec<String> = histories.iter_mut().map(History::call).collect();
            let answers = self.batch(&batch);
            for (history, answers) in histories.iter_mut().zip(&answers) {
                history.answered(&answers[0]);
            }
            more(&self.table);
        }
    }

    fn record(&mut self, call: &str, answers: &[String]) {
        let verdict = self.verdict(call, answers);
        // A call that was skipped by some is counted by what another answered.
        let told = answers.iter().find(|answer| *answer != "skip" && *answer != "unknown");
        let told = told.unwrap_or(&answers[0]);
        let count = match verdict {
            _ if self.lacked(call, answers) => Count::Lacked,
            Verdict::Skipped => Count::Skipped,
            _ => Count::Compared,
        };
        self.table.count(operation(call), kind(told), count, verdict == Verdict::Different);
        if verdict == Verdict::Different && self.first.is_none() {
            self.first = Some(call.to_string());
        }
    }

    /// Whether a speaker says `unknown` because it does not have the operation.
    fn lacks(&self, speaker: usize, call: &str, answer: &str) -> bool {
        let name = operation(call);
        answer == "unknown"
            && OPERATIONS.contains(&name)
            && !self.speakers[speaker].operations.contains(&name)
    }

    fn lacked(&self, call: &str, answers: &[String]) -> bool {
        (0..answers.len()).any(|i| self.lacks(i, call, &answers[i]))
    }

    /// Every two answers are compared; a call that one of them skips is counted apart.
    fn verdict(&self, call: &str, answers: &[String]) -> Verdict {
        let mut all = Verdict::Same;
        for i in 0..answers.len() {
            for j in i + 1..answers.len() {
                if self.lacks(i, call, &answers[i]) || self.lacks(j, call, &answers[j]) {
                    continue;
                }
                let skipping = if answers[i] == "skip" { i } else { j };
                let again = |bare: &str| self.speakers[skipping].answer(bare);
                match judge(call, &answers[i], &answers[j], again) {
                    Verdict::Different => return Verdict::Different,
                    Verdict::Skipped => all = Verdict::Skipped,
                    Verdict::Same => {}
                }
            }
        }
        all
    }

    /// The verdict on each call, and what kinds of answers it got.
    fn kinds(&self, calls: &[String]) -> Vec<(Verdict, Vec<String>)> {
        let columns: Vec<Vec<String>> = self.speakers.iter().map(|speaker| speaker.answers(calls)).collect();
        let of = |i: usize| {
            let answers: Vec<String> = columns.iter().map(|answers| answers[i].clone()).collect();
            (self.verdict(&calls[i], &answers), answers.iter().map(|answer| kind(answer)).collect())
        };
        (0..calls.len()).map(of).collect()
    }

    /// Whether they answer this call differently, asked about it alone.
    pub fn differ_on(&self, call: &str) -> bool {
        self.kinds(&[call.to_string()])[0].0 == Verdict::Different
    }

    /// The first difference, made as small as it goes while the answers stay of their kinds.
    pub fn shrunk(&self) -> Option<String> {
        let first = self.first.as_ref()?;
        let kinds = self.kinds(from_ref(first));
        // A program is asked about many calls at once, since it takes long to start.
        let at_once = if self.speakers.iter().any(Speaker::is_program) { 100 } else { 1 };
        Some(shrink(first, at_once, |calls| {
            let alike =
                |(call, kind): (&String, &_)| operation(call) == operation(first) && *kind == kinds[0];
            calls.iter().zip(&self.kinds(calls)).position(alike)
        }))
    }

    pub fn print_difference(&self) {
        let Some(small) = self.shrunk() else { return };
        println!("the first difference, made small:");
        println!("  {}", show(&small));
        println!("  {small}");
        for speaker in &self.speakers {
            let answer = speaker.answer(&small);
            println!("  {}: {}\n    {answer}", speaker.name, show_answer(&answer));
        }
        if let Some(first) = &self.first {
            println!("as it was found, {} letters: {}", first.len(), &first[..first.len().min(2000)]);
        }
    }
}
