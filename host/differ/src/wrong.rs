//! Five wrong answers built around the oracle, to show that the runner finds and shrinks them. Each is
//! a mistake that looks right; document 01 warns of the first three.

use crate::judge::operation;
use calls::{decode, from_hex, to_hex, Value};

pub struct Wrong {
    pub name: &'static str,
    pub operation: &'static str,
    /// The wrong answer to a call, out of its words and the right answer's.
    spoil: fn(&[&str], &[&str]) -> Option<String>,
}

pub const WRONG: [Wrong; 5] = [
    Wrong { name: "segment-before-lo", operation: "select", spoil: segment_before_lo },
    Wrong { name: "past-the-match", operation: "merge_from_writer", spoil: past_the_match },
    Wrong { name: "writer-watermarks", operation: "merge_from_compactor", spoil: writer_watermarks },
    Wrong { name: "borrows-unpruned", operation: "project", spoil: borrows_unpruned },
    Wrong { name: "run-ids-ascend", operation: "union", spoil: run_ids_ascend },
];

impl Wrong {
    pub fn answer(&self, call: &str) -> String {
        let right = oracle::answer(call);
        if operation(call) != self.operation || call.starts_with("room=") {
            return right;
        }
        let (words, answer): (Vec<&str>, Vec<&str>) = (call.split(' ').collect(), right.split(' ').collect());
        (self.spoil)(&words, &answer).unwrap_or(right)
    }
}

fn read(word: &str) -> Option<Value> {
    decode(&from_hex(word)?)
}

fn write(value: &Value) -> String {
    to_hex(&value.encode())
}

fn elements(value: &Value) -> Option<&Vec<Value>> {
    match value {
        Value::Array(values) => Some(values),
        _ => None,
    }
}

fn element(value: &mut Value, index: usize) -> Option<&mut Value> {
    match value {
        Value::Array(values) => values.get_mut(index),
        _ => None,
    }
}

/// "Taking the segment before `lo` without asking whether `lo` begins with its prefix."
fn segment_before_lo(_: &[&str], answer: &[&str]) -> Option<String> {
    let ["ok", "window", from, to] = answer else { return None };
    let from: usize = from.parse().ok()?;
    (from > 0).then(|| format!("ok window {} {to}", from - 1))
}

/// The segment of a manifest that has the same prefix.
fn same_prefix<'a>(manifest: &'a Value, segment: &Value) -> Option<&'a Value> {
    let prefix = elements(segment)?.first()?;
    elements(elements(manifest)?.get(2)?)?
        .iter()
        .find(|other| elements(other).and_then(|o| o.first()) == Some(prefix))
}

/// "Stopping L0 after the matching view."
fn past_the_match(words: &[&str], answer: &[&str]) -> Option<String> {
    let ["ok", segments] = answer else { return None };
    let (writer, mut merged) = (read(words.get(1)?)?, read(segments)?);
    for i in 0..elements(&merged)?.len() {
        let segment = element(&mut merged, i)?;
        let own = elements(elements(elements(same_prefix(&writer, segment)?)?.get(1)?)?.get(2)?)?;
        let Value::Array(l0) = element(element(segment, 1)?, 2)? else { return None };
        if let Some(Value::Array(matching)) = own.get(l0.len()) {
            // Without the further elements that the right answer has dropped as well.
            l0.push(Value::Array(matching.iter().take(5).cloned().collect()));
        }
    }
    Some(format!("ok {}", write(&merged)))
}

/// "Keeping a writer-only segment's runs or watermarks."
fn writer_watermarks(words: &[&str], answer: &[&str]) -> Option<String> {
    let ["ok", segments] = answer else { return None };
    let (writer, compactor, mut merged) = (read(words.get(1)?)?, read(words.get(2)?)?, read(segments)?);
    for i in 0..elements(&merged)?.len() {
        let segment = element(&mut merged, i)?;
        if same_prefix(&compactor, segment).is_some() {
            continue;
        }
        let tree = elements(elements(same_prefix(&writer, segment)?)?.get(1)?)?.clone();
        for mark in 0..2 {
            *element(element(segment, 1)?, mark)? = tree.get(mark)?.clone();
        }
    }
    Some(format!("ok {}", write(&merged)))
}

/// Borrows left as they were.
fn borrows_unpruned(words: &[&str], answer: &[&str]) -> Option<String> {
    let ["ok", count, manifest] = answer else { return None };
    let (given, mut projected) = (read(words.get(1)?)?, read(manifest)?);
    *element(&mut projected, 9)? = elements(&given)?.get(9)?.clone();
    Some(format!("ok {count} {}", write(&projected)))
}

/// Run ids of the unsegmented tree that ascend from 0.
fn run_ids_ascend(_: &[&str], answer: &[&str]) -> Option<String> {
    let ["ok", manifest] = answer else { return None };
    let mut united = read(manifest)?;
    let runs = element(element(&mut united, 1)?, 3)?;
    for i in 0..elements(runs)?.len() {
        *element(element(runs, i)?, 0)? = Value::Int(i as i128);
    }
    Some(format!("ok {}", write(&united)))
}
