//! Those who answer calls: functions in this process, or programs that speak the line protocol.

use crate::wrong;
use calls::OPERATIONS;
use std::io::{self, Write};
use std::process::{Command, Stdio};
use std::thread;

pub struct Speaker {
    pub name: String,
    /// What it has; the calls of every other operation it answers `unknown`.
    pub operations: Vec<&'static str>,
    kind: Kind,
}

enum Kind {
    Function(fn(&str) -> String),
    /// One of the wrong answers built around the oracle.
    Wrong(usize),
    Program,
}

impl Speaker {
    /// A name of one that is built in, or the path of a program.
    pub fn named(name: &str) -> Result<Speaker, String> {
        let mut operations = OPERATIONS.to_vec();
        let kind = match name {
            "oracle" => Kind::Function(oracle::answer),
            "real" => Kind::Function(oracle_real::answer),
            "model" => Kind::Function(model::answer),
            "port" => {
                operations = port_operations()?;
                Kind::Function(port_answer)
            }
            _ if name.contains('/') => {
                operations = listed(name)?;
                Kind::Program
            }
            _ => {
                let place = wrong::WRONG.iter().position(|wrong| wrong.name == name);
                Kind::Wrong(place.ok_or_else(|| format!("nobody here is called {name}"))?)
            }
        };
        Ok(Speaker { name: name.to_string(), operations, kind })
    }

    pub fn is_program(&self) -> bool {
        matches!(self.kind, Kind::Program)
    }

    /// One answer a call, in order.
    pub fn answers(&self, calls: &[String]) -> Vec<String> {
        match self.kind {
            Kind::Function(answer) => calls.iter().map(|call| answer(call)).collect(),
            Kind::Wrong(index) => calls.iter().map(|call| wrong::WRONG[index].answer(call)).collect(),
            Kind::Program => {
                let text = calls.join("\n") + "\n";
                let mut answers =
                    run(&self.name, &[], text).unwrap_or_else(|error| vec![format!("died: {error}")]);
                answers.resize(calls.len(), "died".to_string());
                answers
            }
        }
    }

    pub fn answer(&self, call: &str) -> String {
        self.answers(&[call.to_string()]).remove(0)
    }
}

/// A program's path, and the word that lends it pages if that follows.
fn on_pages(name: &str) -> (&str, Option<&str>) {
    name.strip_suffix(" --pages").map_or((name, None), |path| (path, Some("--pages")))
}

/// What a program writes on some input, line by line.
fn run(path: &str, words: &[&str], text: String) -> io::Result<Vec<String>> {
    let (path, pages) = on_pages(path);
    let mut child =
        Command::new(path).args(pages).args(words).stdin(Stdio::piped()).stdout(Stdio::piped()).spawn()?;
    let mut input = child.stdin.take().expect("a pipe");
    // A thread of its own, since the program may answer before it has read everything.
    let writer = thread::spawn(move || input.write_all(text.as_bytes()));
    let output = child.wait_with_output()?;
    // A program that ends early shows in the answers that are missing.
    let _ = writer.join();
    Ok(String::from_utf8_lossy(&output.stdout).lines().map(str::to_string).collect())
}

/// The operations that a program says it has. One that says nothing has all of them.
pub fn listed(path: &str) -> Result<Vec<&'static str>, String> {
    let (path, _) = on_pages(path);
    let lines = run(path, &["--operations"], String::new()).map_err(|error| format!("{path}: {error}"))?;
    let has = |operation: &&str| lines.is_empty() || lines.iter().any(|line| line == operation);
    Ok(OPERATIONS.into_iter().filter(has).collect())
}

#[cfg(feature = "port")]
fn port_operations() -> Result<Vec<&'static str>, String> {
    Ok(OPERATIONS.into_iter().filter(|name| port::OPERATIONS.contains(name)).collect())
}

#[cfg(feature = "port")]
fn port_answer(call: &str) -> String {
    port::answer(call)
}

#[cfg(not(feature = "port"))]
fn port_operations() -> Result<Vec<&'static str>, String> {
    Err("the port is not built in: tools/differ builds it in".to_string())
}

#[cfg(not(feature = "port"))]
fn port_answer(_: &str) -> String {
    "unknown".to_string()
}
