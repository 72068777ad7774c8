//! Makes a call smaller for as long as something stays true of it.

use crate::spans;
use calls::{decode, from_hex, to_hex, Value};

/// The smallest call found of which something holds; it holds of the one given. `first` says which of
/// some calls is the first of which it holds, and is asked about so many at once.
pub fn shrink(call: &str, at_once: usize, first: impl Fn(&[String]) -> Option<usize>) -> String {
    let mut smallest = call.to_string();
    loop {
        let candidates = candidates(&smallest);
        let found = candidates.chunks(at_once).find_map(|calls| Some(calls[first(calls)?].clone()));
        match found {
            Some(smaller) => smallest = smaller,
            None => return smallest,
        }
    }
}

/// Shorter first; of equal length that with the smaller letters. Every step goes down in it.
fn weight(call: &str) -> (usize, u64) {
    (call.len(), call.bytes().map(u64::from).sum())
}

fn candidates(call: &str) -> Vec<String> {
    let words: Vec<&str> = call.split(' ').collect();
    let with = |i: usize, word: &str| {
        let mut words = words.clone();
        words[i] = word;
        words.join(" ")
    };
    let mut found = vec![];
    for i in 0..words.len() {
        // A source, or the room.
        found.push([&words[..i], &words[i + 1..]].concat().join(" "));
    }
    for (i, word) in words.iter().enumerate() {
        found.extend(smaller_words(word).iter().map(|word| with(i, word)));
    }
    found.retain(|smaller| weight(smaller) < weight(call));
    found
}

/// A word is a list of fields, with commas between them or colons.
fn smaller_words(word: &str) -> Vec<String> {
    let mut found = vec![".".to_string(), "-".to_string()];
    for mark in [",", ":"] {
        let fields: Vec<&str> = word.split(mark).collect();
        for i in 0..fields.len() {
            if fields.len() > 1 {
                found.push([&fields[..i], &fields[i + 1..]].concat().join(mark));
                for replaced in smaller_words(fields[i]) {
                    let mut fields = fields.clone();
                    fields[i] = &replaced;
                    found.push(fields.join(mark));
                }
            }
        }
    }
    if let Some(bytes) = from_hex(word) {
        match decode(&bytes) {
            Some(value @ Value::Array(_)) => {
                found.extend(smaller_values(&value).iter().map(|value| to_hex(&value.encode())));
                found.extend(spans::smaller(&bytes).iter().map(|bytes| to_hex(bytes)));
            }
            _ => found.extend(smaller_bytes(&bytes).iter().map(|bytes| to_hex(bytes))),
        }
    }
    found
}

fn smaller_values(value: &Value) -> Vec<Value> {
    match value {
        Value::Array(values) => {
            let mut found = vec![Value::Nil];
            found.extend(without_some(values).into_iter().map(Value::Array));
            for (i, inner) in values.iter().enumerate() {
                for smaller in smaller_values(inner) {
                    let mut values = values.clone();
                    values[i] = smaller;
                    found.push(Value::Array(values));
                }
            }
            found
        }
        Value::Bin(bytes) => {
            let smaller = smaller_bytes(bytes).into_iter().map(Value::Bin);
            std::iter::once(Value::Nil).chain(smaller).collect()
        }
        Value::Int(number) => {
            [0, 1, i128::from(i64::MIN)].into_iter().filter(|n| n != number).map(Value::Int).collect()
        }
        Value::Raw(_) => vec![Value::Nil],
        Value::Bool(_) => vec![Value::Bool(false)],
        Value::Nil | Value::Record(_) => vec![],
    }
}

/// Half of it gone, or a single one.
fn without_some<T: Clone>(items: &[T]) -> Vec<Vec<T>> {
    let mut found = vec![];
    if items.len() > 2 {
        let (low, high) = items.split_at(items.len() / 2);
        found.extend([low.to_vec(), high.to_vec()]);
    }
    for i in 0..items.len() {
        found.push([&items[..i], &items[i + 1..]].concat());
    }
    found
}

fn smaller_bytes(bytes: &[u8]) -> Vec<Vec<u8>> {
    let mut found = vec![vec![], vec![0; bytes.len()]];
    found.extend(without_some(bytes));
    for (i, byte) in bytes.iter().enumerate() {
        for lower in [0, 1, b'a', b'b'].into_iter().filter(|lower| lower < byte) {
            let mut bytes = bytes.to_vec();
            bytes[i] = lower;
            found.push(bytes);
        }
    }
    found
}
