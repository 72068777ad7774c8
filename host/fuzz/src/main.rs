//! The fuzzer. It makes calls out of those that went somewhere new in oracle and model, and puts them to the port.

mod check;
mod corpus;
mod coverage;
mod mutate;
mod port;
mod stand_in;

use calls::to_hex;
use check::{read_back, Answers};
use corpus::Corpus;
use coverage::Coverage;
use differ::judge::{kind, operation};
use differ::wrong::WRONG;
use differ::Run;
use mutate::Mutator;
use port::Port;
use std::collections::{BTreeMap, HashSet};
use std::fs;
use std::hash::{DefaultHasher, Hash, Hasher};
use std::path::{Path, PathBuf};
use std::process::ExitCode;
use std::time::{Duration, Instant};

const USAGE: &str = "usage: fuzz PORT [--seed N] [--seconds S] [--calls N] [--keep DIRECTORY] [--distil FILE] [--unguided] [--progress] [FILE ..]
       fuzz --selftest [--seed N]          the runner's wrong answers, each to be found
       fuzz --dies                         a port for the tests: the model, which some call kills
PORT: the path of a program (with a / in it), or one of the runner's wrong answers
FILE: what it begins with: manifests (.mp), or lists of calls
--unguided: the generator's calls alone, to see what the guidance is worth
It ends after S seconds (60) or N calls, or with the first batch in which something was found; that is kept in DIRECTORY.";

/// So many calls are a batch, for which the port is a process of its own.
const BATCH: usize = 1000;

fn main() -> ExitCode {
    let done = Options::read().ok_or_else(|| USAGE.to_string()).and_then(|options| options.perform());
    match done {
        Ok(true) => ExitCode::SUCCESS,
        Ok(false) => ExitCode::FAILURE,
        Err(why) => {
            eprintln!("{why}");
            ExitCode::from(2)
        }
    }
}

#[derive(Clone)]
struct Options {
    port: String,
    seed: u64,
    seconds: u64,
    calls: usize,
    /// So many of the generator's calls of each operation come first.
    first: usize,
    keep: PathBuf,
    distil: Option<PathBuf>,
    unguided: bool,
    progress: bool,
    /// Nothing is kept of what was found.
    quiet: bool,
    files: Vec<PathBuf>,
}

impl Options {
    fn read() -> Option<Options> {
        let mut words = std::env::args().skip(1);
        let mut options = Options {
            port: words.next()?,
            seed: 1,
            seconds: 60,
            calls: usize::MAX,
            first: 200,
            keep: PathBuf::from("found"),
            distil: None,
            unguided: false,
            progress: false,
            quiet: false,
            files: vec![],
        };
        while let Some(word) = words.next() {
            match word.as_str() {
                "--seed" => options.seed = words.next()?.parse().ok()?,
                "--seconds" => options.seconds = words.next()?.parse().ok()?,
                "--calls" => options.calls = words.next()?.parse().ok()?,
                "--keep" => options.keep = words.next()?.into(),
                "--distil" => options.distil = Some(words.next()?.into()),
                "--unguided" => options.unguided = true,
                "--progress" => options.progress = true,
                word if word.starts_with("--") => return None,
                file => options.files.push(file.into()),
            }
        }
        Some(options)
    }

    fn perform(&self) -> Result<bool, String> {
        match self.port.as_str() {
            "--selftest" => return self.selftest(),
            "--dies" => return stand_in::serve().map(|()| true).map_err(|error| error.to_string()),
            _ => {}
        }
        let mut fuzz = Fuzz::new(self)?;
        fuzz.run()?;
        fuzz.print();
        if let Some(file) = &self.distil {
            let calls = fuzz.corpus.distilled(|call| {
                let (seen, answers) = measured(call);
                (seen, kind(&answers.model))
            });
            let head = "# Calls that together go over the edges of oracle and model that the short calls of a run of tools/fuzz went over";
            let text: String = calls.iter().map(|call| format!("{call}\n")).collect();
            let text = format!("{head}: seed {}, {} s.\n{text}", self.seed, self.seconds);
            fs::write(file, text).map_err(|error| format!("{}: {error}", file.display()))?;
            println!("{} calls that go over the same edges are in {}", calls.len(), file.display());
        }
        Ok(fuzz.findings == 0)
    }

    /// Each of the runner's wrong answers is found.
    fn selftest(&self) -> Result<bool, String> {
        // Both count, go elsewhere on another call and the same way on the same one, what is done once apart.
        measured("read -");
        let edges = |answer: fn(&str) -> String, call: &str| Coverage::of(|| drop(answer(call)));
        let mut passed = true;
        for (name, answer) in [("oracle", oracle::answer as fn(&str) -> String), ("model", model::answer)] {
            let (short, long) = (edges(answer, "read -"), edges(answer, "lookup c0 61"));
            let counts = !short.is_empty() && short != long && short == edges(answer, "read -");
            println!(
                "{} {name}: {} and {} edges",
                if counts { "counts" } else { "DOES NOT COUNT" },
                short.len(),
                long.len()
            );
            passed &= counts;
        }
        for wrong in &WRONG {
            let port = wrong.name.to_string();
            // Few calls to begin with, so that most are made of others.
            let options =
                Options { port, calls: 100_000, seconds: 300, first: 2, quiet: true, ..self.clone() };
            let mut fuzz = Fuzz::new(&options)?;
            fuzz.run()?;
            let found = fuzz.findings > 0;
            println!(
                "{} {} in {} calls",
                if found { "found" } else { "NOT FOUND" },
                wrong.name,
                fuzz.calls()
            );
            passed &= found;
        }
        Ok(passed)
    }
}

/// What oracle and model answer, and where they went.
fn measured(call: &str) -> (Vec<(u32, u8)>, Answers) {
    let mut answers = None;
    let seen = Coverage::of(|| answers = Some(Answers::to(call)));
    (seen, answers.expect("they were asked"))
}

/// The calls of a file: a manifest's, or those that it lists.
fn calls_of(path: &Path) -> Result<Vec<String>, String> {
    let bytes = fs::read(path).map_err(|error| format!("{}: {error}", path.display()))?;
    if path.extension().is_some_and(|kind| kind == "mp") {
        return Ok(vec![format!("read {}", to_hex(&bytes)), format!("owned {}", to_hex(&bytes))]);
    }
    let text = String::from_utf8_lossy(&bytes);
    let is_call = |line: &&str| !line.is_empty() && !line.starts_with(['#', '=']);
    Ok(text.lines().filter(is_call).map(str::to_string).collect())
}

#[derive(Default)]
struct Row {
    calls: usize,
    ok: usize,
    refused: usize,
    unknown: usize,
}

struct Fuzz<'a> {
    options: &'a Options,
    port: Port,
    corpus: Corpus,
    mutator: Mutator,
    rows: BTreeMap<String, Row>,
    /// Results to be read back, and what is to be answered.
    owed: Vec<(String, String)>,
    /// Those that were, by their hashes.
    results: HashSet<u64>,
    start: Instant,
    findings: usize,
}

impl<'a> Fuzz<'a> {
    fn new(options: &'a Options) -> Result<Fuzz<'a>, String> {
        let coverage = Coverage::new();
        let coverage = coverage.ok_or("oracle and model are not instrumented: tools/fuzz builds them so")?;
        let port = Port::named(&options.port)?;
        let operations = port.operations()?;
        Ok(Fuzz {
            options,
            port,
            corpus: Corpus::new(&operations, coverage),
            mutator: Mutator::new(options.seed, &operations),
            rows: BTreeMap::new(),
            owed: vec![],
            results: HashSet::new(),
            start: Instant::now(),
            findings: 0,
        })
    }

    fn calls(&self) -> usize {
        self.rows.values().map(|row| row.calls).sum()
    }

    fn run(&mut self) -> Result<(), String> {
        let operations = self.corpus.operations();
        let mut first = vec![];
        for file in &self.options.files {
            first.extend(calls_of(file)?);
        }
        first.retain(|call| operations.contains(&operation(call)));
        for operation in &operations {
            first.extend((0..self.options.first).map(|_| self.mutator.made(operation)));
        }
        for batch in first.chunks(BATCH) {
            if self.findings == 0 {
                self.batch(batch.to_vec())?;
            }
        }
        let mut told = Instant::now();
        while self.goes_on() {
            let batch = (0..BATCH).map(|place| match self.options.unguided {
                true => self.mutator.made(operations[place % operations.len()]),
                false => self.mutator.call(&self.corpus),
            });
            let batch = batch.collect();
            self.batch(batch)?;
            if self.options.progress && told.elapsed() >= Duration::from_secs(30) {
                told = Instant::now();
                eprintln!("{} s: {}", self.start.elapsed().as_secs(), self.summary());
            }
        }
        Ok(())
    }

    fn goes_on(&self) -> bool {
        let time = self.start.elapsed() < Duration::from_secs(self.options.seconds);
        time && self.calls() < self.options.calls && self.findings == 0
    }

    /// Puts calls to all three, and what is owed from before.
    fn batch(&mut self, mut batch: Vec<String>) -> Result<(), String> {
        let made = batch.len();
        let owed = std::mem::take(&mut self.owed);
        batch.extend(owed.iter().map(|(call, _)| call.clone()));
        // The port answers while the other two are asked here.
        let asked = self.port.ask(&batch)?;
        let mut right = vec![];
        for call in &batch {
            let (seen, answers) = measured(call);
            self.corpus.offer(call, &seen, kind(&answers.model));
            right.push(answers);
        }
        let (answers, ended) = asked.answers(batch.len());
        if let Some(how) = ended {
            let before = self.port.until_its_end(&batch)?.len();
            let why = match before < batch.len() {
                true => format!("the port ended in this call: {how}"),
                false => format!("the port ended in this batch, and not again when asked singly: {how}"),
            };
            self.found(&batch, before.min(batch.len() - 1), &why)?;
        }
        let may_skip = matches!(self.port, Port::Wrong(_));
        for (place, (call, answer)) in batch.iter().zip(&answers).enumerate() {
            self.count(call, answer);
            if let Some(why) = right[place].against(call, answer, may_skip) {
                self.found(&batch, place, why)?;
            } else if place >= made && *answer != owed[place - made].1 {
                self.found(&batch, place, "a result does not read back")?;
            } else if let Some((back, wanted)) = read_back(call, answer).filter(|_| place < made) {
                let mut hasher = DefaultHasher::new();
                back.hash(&mut hasher);
                if self.results.insert(hasher.finish()) {
                    self.owed.push((back, wanted));
                }
            }
        }
        Ok(())
    }

    fn count(&mut self, call: &str, answer: &str) {
        let row = self.rows.entry(operation(call).to_string()).or_default();
        row.calls += 1;
        match answer {
            "unknown" => row.unknown += 1,
            _ if answer.starts_with("ok") => row.ok += 1,
            _ => row.refused += 1,
        }
    }

    /// Keeps the call, and its batch up to it as the port's process got it. The first is made small and shown.
    fn found(&mut self, batch: &[String], place: usize, why: &str) -> Result<(), String> {
        self.findings += 1;
        if self.findings > 5 || self.options.quiet {
            return Ok(());
        }
        let call = &batch[place];
        let name = format!("{}-{}", self.options.seed, self.findings);
        let keep = |kind: &str, calls: &[String]| {
            let path = self.options.keep.join(format!("{name}.{kind}"));
            let written = fs::create_dir_all(&self.options.keep).and_then(|()| {
                fs::write(&path, calls.iter().map(|call| format!("{call}\n")).collect::<String>())
            });
            written
                .map(|()| path.display().to_string())
                .map_err(|error| format!("{}: {error}", path.display()))
        };
        let (alone, before) = (keep("call", &batch[place..=place])?, keep("batch", &batch[..=place])?);
        println!("found: {why}\n  the call is in {alone}, with those before it in {before}");
        if self.findings > 1 {
            return Ok(());
        }
        let port = match self.port {
            Port::Program(_) => format!("{} --pages", self.options.port),
            Port::Wrong(_) => self.options.port.clone(),
        };
        let mut run = Run::new(&["oracle".to_string(), "model".to_string(), port])?;
        if run.differ_on(call) {
            run.first = Some(call.clone());
            run.first = run.shrunk();
            run.print_difference();
        } else {
            println!("  asked about it alone, all agree");
        }
        Ok(())
    }

    fn summary(&self) -> String {
        let coverage = &self.corpus.coverage;
        format!(
            "{} calls, {} of {} edges of oracle and model reached, {} calls in the corpus, {} results read back, {} findings",
            self.calls(),
            coverage.reached(),
            coverage.edges(),
            self.corpus.len(),
            self.results.len() - self.owed.len(),
            self.findings
        )
    }

    fn print(&self) {
        println!("{:<21} {:>9} {:>9} {:>9} {:>9}", "operation", "calls", "ok", "refused", "unknown");
        let known = self.corpus.operations();
        let mut none = Row::default();
        for (name, row) in &self.rows {
            if known.contains(&name.as_str()) {
                print_row(name, row);
            } else {
                none.calls += row.calls;
                none.unknown += row.unknown;
                none.ok += row.ok;
                none.refused += row.refused;
            }
        }
        print_row("(none of these)", &none);
        println!("seed {}, {} s: {}", self.options.seed, self.start.elapsed().as_secs(), self.summary());
    }
}

fn print_row(name: &str, row: &Row) {
    println!("{name:<21} {:>9} {:>9} {:>9} {:>9}", row.calls, row.ok, row.refused, row.unknown);
}
