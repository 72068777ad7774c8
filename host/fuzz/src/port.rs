//! The port, asked over pipes: a batch of calls is a process of its own, so that whatever happens in it happens again.

use calls::OPERATIONS;
use differ::speaker::listed;
use differ::wrong::WRONG;
use std::io::{BufRead, BufReader, Write};
use std::process::{Child, ChildStdin, Command, Stdio};
use std::sync::mpsc::{channel, Receiver};
use std::thread;
use std::time::Duration;

/// A call that takes longer does not end.
const PATIENCE: Duration = Duration::from_secs(60);

pub enum Port {
    Program(String),
    /// One of the runner's wrong answers, in this process.
    Wrong(usize),
}

/// A batch under way.
pub enum Asked {
    Running(Process),
    Done(Vec<String>),
}

impl Port {
    /// A program's path, or the name of a wrong answer.
    pub fn named(name: &str) -> Result<Port, String> {
        if name.contains('/') {
            return Ok(Port::Program(name.to_string()));
        }
        let place = WRONG.iter().position(|wrong| wrong.name == name);
        place.map(Port::Wrong).ok_or_else(|| format!("nobody here is called {name}"))
    }

    pub fn operations(&self) -> Result<Vec<&'static str>, String> {
        match self {
            Port::Program(path) => listed(path),
            Port::Wrong(_) => Ok(OPERATIONS.to_vec()),
        }
    }

    pub fn ask(&self, batch: &[String]) -> Result<Asked, String> {
        Ok(match self {
            Port::Wrong(place) => Asked::Done(batch.iter().map(|call| WRONG[*place].answer(call)).collect()),
            Port::Program(path) => {
                let mut process = Process::start(path)?;
                let mut input = process.input.take().expect("a pipe");
                let text = batch.join("\n") + "\n";
                // It may answer before it has read everything. One that ends early shows in what is missing.
                thread::spawn(move || input.write_all(text.as_bytes()));
                Asked::Running(process)
            }
        })
    }

    /// The answers to a batch whose process ended too early, one call at a time: the last of them is where it ends.
    pub fn until_its_end(&self, batch: &[String]) -> Result<Vec<String>, String> {
        let Port::Program(path) = self else { return Ok(vec![]) };
        let mut process = Process::start(path)?;
        let mut input = process.input.take().expect("a pipe");
        let mut answers = vec![];
        for call in batch {
            let sent = writeln!(input, "{call}").and_then(|()| input.flush());
            match process.answers.recv_timeout(PATIENCE).ok().filter(|_| sent.is_ok()) {
                Some(answer) => answers.push(answer),
                None => break,
            }
        }
        drop(input);
        process.end();
        Ok(answers)
    }
}

impl Asked {
    /// The answers, and how it ended if that was not as it should.
    pub fn answers(self, count: usize) -> (Vec<String>, Option<String>) {
        match self {
            Asked::Done(answers) => (answers, None),
            Asked::Running(process) => {
                let mut answers = vec![];
                while answers.len() < count {
                    match process.answers.recv_timeout(PATIENCE) {
                        Ok(answer) => answers.push(answer),
                        Err(_) => break,
                    }
                }
                let ended = process.end();
                let whole = answers.len() == count && ended.is_none();
                (answers, if whole { None } else { Some(ended.unwrap_or("answers are missing".to_string())) })
            }
        }
    }
}

pub struct Process {
    child: Child,
    input: Option<ChildStdin>,
    answers: Receiver<String>,
}

impl Process {
    fn start(path: &str) -> Result<Process, String> {
        let mut command = Command::new(path);
        command.arg("--pages").stdin(Stdio::piped()).stdout(Stdio::piped());
        let mut child = command.spawn().map_err(|error| format!("{path}: {error}"))?;
        let output = BufReader::with_capacity(1 << 16, child.stdout.take().expect("a pipe"));
        let (sender, answers) = channel();
        thread::spawn(move || output.lines().map_while(Result::ok).try_for_each(|line| sender.send(line)));
        Ok(Process { input: child.stdin.take(), child, answers })
    }

    /// How it ended, unless that was well. One that goes on is stopped.
    fn end(mut self) -> Option<String> {
        // Nothing is left to be read and to be written, so it is about to end, or never will.
        for _ in 0..5_000 {
            match self.child.try_wait() {
                Ok(Some(status)) if status.success() => return None,
                Ok(Some(status)) => return Some(status.to_string()),
                Ok(None) => thread::sleep(Duration::from_millis(1)),
                Err(error) => return Some(error.to_string()),
            }
        }
        let _ = self.child.kill();
        let _ = self.child.wait();
        Some("it did not end".to_string())
    }
}
