//! The runner. It holds programs that speak the line protocol against one another, call by call.

use calls::{random, short, History, Style, OPERATIONS};
use differ::{classes, show, wrong, Run};
use std::io::{self, BufRead};
use std::process::ExitCode;
use std::time::Instant;

const USAGE: &str = "usage:
  differ run A B [C] --seed N [--compared N] [--refusals N] [--only OPERATION] [--progress]
  differ short A B [C]         the short inputs, exhaustively
  differ histories A B [C] --seed N [--compared N] [--progress]    insertions, each into the result of the one before
  differ file A B [C]          calls from standard input
  differ selftest              five wrong answers, each to be found and shrunk
  differ classes --seed N [--compared N]    stand-ins against slatedb's own bodies
A, B, C: oracle, real, model, port (where it is built in), or the path of a program (with a / in it)";

fn main() -> ExitCode {
    let done = Options::read().ok_or_else(|| USAGE.to_string()).and_then(|options| options.perform());
    match done {
        Ok(true) => ExitCode::SUCCESS,
        Ok(false) => ExitCode::FAILURE,
        Err(why) => {
            eprintln!("{why}");
            ExitCode::from(2)
        }
    }
}

struct Options {
    mode: String,
    speakers: Vec<String>,
    seed: u64,
    /// The least number of compared calls of each operation.
    compared: usize,
    /// How often each refusal of the original must be seen at least.
    refusals: usize,
    only: Option<String>,
    progress: bool,
}

impl Options {
    fn read() -> Option<Options> {
        let mut words = std::env::args().skip(1);
        let mut options = Options {
            mode: words.next()?,
            speakers: vec![],
            seed: 1,
            compared: 20_000,
            refusals: 50,
            only: None,
            progress: false,
        };
        while let Some(word) = words.next() {
            match word.as_str() {
                "--seed" => options.seed = words.next()?.parse().ok()?,
                "--compared" => options.compared = words.next()?.parse().ok()?,
                "--refusals" => options.refusals = words.next()?.parse().ok()?,
                "--only" => options.only = Some(words.next()?),
                "--progress" => options.progress = true,
                name => options.speakers.push(name.to_string()),
            }
        }
        Some(options)
    }

    fn perform(&self) -> Result<bool, String> {
        match self.mode.as_str() {
            "run" => self.run(),
            "short" => self.finish(short()),
            "histories" => self.histories(),
            "file" => {
                self.finish(io::stdin().lock().lines().map_while(Result::ok).filter(|line| is_call(line)))
            }
            "selftest" => Ok(selftest(self.seed)),
            "classes" => Ok(classes::classes(self.lawful_calls())),
            _ => Err(USAGE.to_string()),
        }
    }

    fn chosen(&self, operation: &str) -> bool {
        self.only.as_ref().is_none_or(|only| only == operation)
    }

    /// Random calls of each operation that all speakers have, until enough of them were compared.
    fn run(&self) -> Result<bool, String> {
        let mut run = self.begin()?;
        let start = Instant::now();
        let (there, missing): (Vec<&str>, Vec<&str>) =
            OPERATIONS.into_iter().partition(|operation| run.operations().contains(operation));
        let chosen: Vec<&'static str> =
            there.into_iter().filter(|operation| self.chosen(operation)).collect();
        if !missing.is_empty() {
            println!("not there yet, and not compared: {}", missing.join(", "));
        }
        for operation in &chosen {
            let style = Style { spoilt: true, included: false };
            // If most calls were skipped, the run would not end: four times the number is enough.
            let mut calls = random(self.seed, operation, style).take(4 * self.compared);
            run.compare(&mut calls, |table| {
                let done = table.compared(operation);
                self.show_progress(operation, done, start);
                done < self.compared
            });
        }
        run.table.print();
        run.print_difference();
        let short = run.table.shortfalls(&chosen, self.compared, self.refusals);
        short.iter().for_each(|shortfall| println!("too few: {shortfall}"));
        println!("seed {}: {} differences", self.seed, run.table.different());
        Ok(run.table.different() == 0 && short.is_empty() && !chosen.is_empty())
    }

    /// Histories of insertions, begun with lawful manifests.
    fn histories(&self) -> Result<bool, String> {
        const LENGTH: usize = 40;
        let mut run = self.begin()?;
        let start = Instant::now();
        let count = self.compared.div_ceil(LENGTH);
        let mut histories: Vec<History> = (0..count).map(|i| History::new(self.seed, i)).collect();
        run.histories(&mut histories, LENGTH, |table| {
            self.show_progress("insert", table.compared("insert"), start);
        });
        run.table.print();
        run.print_difference();
        println!("seed {}: {count} histories, {} differences", self.seed, run.table.different());
        Ok(run.table.different() == 0)
    }

    fn show_progress(&self, operation: &str, done: usize, start: Instant) {
        if self.progress {
            eprintln!("{operation}: {done} of {} compared, {} s", self.compared, start.elapsed().as_secs());
        }
    }

    fn begin(&self) -> Result<Run, String> {
        if self.speakers.len() < 2 {
            return Err(USAGE.to_string());
        }
        Run::new(&self.speakers)
    }

    fn finish(&self, mut calls: impl Iterator<Item = String>) -> Result<bool, String> {
        let mut run = self.begin()?;
        run.compare(&mut calls, |_| true);
        run.table.print();
        run.print_difference();
        println!("{} differences", run.table.different());
        Ok(run.table.different() == 0)
    }

    /// Lawful calls of every operation, in half of which no visible range starts excluded, and the
    /// short inputs.
    fn lawful_calls(&self) -> impl Iterator<Item = String> + '_ {
        let row = |operation, included| {
            let style = Style { spoilt: false, included };
            random(self.seed, operation, style).take(self.compared / 2)
        };
        OPERATIONS
            .into_iter()
            .filter(|operation| self.chosen(operation))
            .flat_map(move |name| row(name, true).chain(row(name, false)))
            .chain(short())
    }
}

fn is_call(line: &str) -> bool {
    !line.is_empty() && !line.starts_with('#')
}

/// Each wrong answer is found by random calls, is shrunk, and is still wrong then.
fn selftest(seed: u64) -> bool {
    let mut passed = true;
    for wrong in &wrong::WRONG {
        let mut run = Run::new(&["model".to_string(), wrong.name.to_string()]).expect("they are built in");
        let style = Style { spoilt: true, included: false };
        let mut calls = random(seed, wrong.operation, style).take(20_000);
        run.compare(&mut calls, |table| table.different() == 0);
        let found = run.first.as_ref().map_or(0, String::len);
        let small = run.shrunk().unwrap_or_default();
        let still = !small.is_empty() && model::answer(&small) != wrong.answer(&small);
        let good = still && oracle::answer(&small) == model::answer(&small) && small.len() < found;
        println!(
            "{} {}: {} different, {found} letters shrunk to {}",
            if good { "found" } else { "NOT FOUND" },
            wrong.name,
            run.table.different(),
            small.len()
        );
        println!("  {}", show::show(&small));
        println!("  right: {}", show::show_answer(&model::answer(&small)));
        println!("  wrong: {}", show::show_answer(&wrong.answer(&small)));
        passed &= good;
    }
    passed
}
