//! Calls made out of those that went somewhere new: records changed here and there, words taken from elsewhere, rooms that
//! just fit. And calls made from nothing, as the generator makes them.

mod values;
mod walk;
mod words;

use crate::corpus::Corpus;
use calls::{random, Maker, Random, Style};
use differ::judge::operation;
use differ::room::{filled, split};
use std::collections::BTreeMap;
use walk::keys_of;

/// A call of more letters takes too long for what it shows.
const LONGEST: usize = 140_000;

/// Operations whose calls have the same words.
const ALIKE: [[&str; 2]; 3] =
    [["lookup", "insert"], ["merge_from_writer", "merge_from_compactor"], ["read", "owned"]];

pub struct Mutator {
    maker: Maker,
    made: BTreeMap<&'static str, Box<dyn Iterator<Item = String>>>,
}

impl Mutator {
    pub fn new(seed: u64, operations: &[&'static str]) -> Mutator {
        let style = Style { spoilt: true, included: false };
        let row = |name: &&'static str| -> (&'static str, Box<dyn Iterator<Item = String>>) {
            (*name, Box::new(random(seed, name, style)))
        };
        let maker = Maker::new(Random::new(seed ^ 0x66_757a_7a00), style);
        Mutator { maker, made: operations.iter().map(row).collect() }
    }

    /// A call from nothing.
    pub fn made(&mut self, operation: &str) -> String {
        let calls = self.made.get_mut(operation).expect("an operation that the port has");
        calls.find(|call| !call.is_empty()).expect("an endless row")
    }

    pub fn call(&mut self, corpus: &Corpus) -> String {
        let operation = self.random().pick(&corpus.operations());
        if self.random().chance(10) {
            return self.made(operation);
        }
        let Some(parent) = corpus.pick(self.random(), operation).cloned() else {
            return self.made(operation);
        };
        let mut call = parent.clone();
        for _ in 0..self.random().pick(&[1, 1, 1, 2, 2, 3, 5]) {
            call = self.changed(&call, corpus);
        }
        // An empty line and one with a # before it are passed over, so they are no calls.
        if call.len() > LONGEST || call.is_empty() || call.starts_with('#') {
            parent
        } else {
            call
        }
    }

    fn random(&mut self) -> &mut Random {
        &mut self.maker.random
    }

    fn changed(&mut self, call: &str, corpus: &Corpus) -> String {
        let mut words: Vec<String> = call.split(' ').map(str::to_string).collect();
        match self.random().below(100) {
            0..8 => return self.with_room(call),
            8..11 => {
                let name = operation(call);
                let other = ALIKE.iter().find_map(|[a, b]| match name {
                    _ if name == *a => Some(b),
                    _ if name == *b => Some(a),
                    _ => None,
                });
                if let (Some(word), Some(other)) = (words.iter_mut().find(|word| *word == name), other) {
                    *word = other.to_string();
                }
            }
            11 => return self.maker.mangle(call),
            12..18 if words.len() > 2 && words.iter().any(|word| word == "union") => {
                // A source more or less.
                let place = words.len() - 1 - self.random().below(words.len() - 2);
                if self.random().chance(40) {
                    words.remove(place);
                } else {
                    words.push(words[place].clone());
                }
            }
            _ => {
                let first = words.iter().position(|word| word == operation(call)).unwrap_or(0) + 1;
                if first < words.len() {
                    let place = first + self.random().below(words.len() - first);
                    let keys = keys_of(call);
                    words[place] = match (&words[place][..], place - first) {
                        (".", what) if operation(call) == "project" => self.asked(what, &keys),
                        (word, _) => self.word(word, &keys, corpus),
                    };
                }
            }
        }
        words.join(" ")
    }

    /// A room that just fits what the call gives, or is too small by one somewhere, or is anything.
    fn with_room(&mut self, call: &str) -> String {
        let bare = split(call).map_or(call, |(_, bare)| bare);
        if self.random().chance(15) {
            return bare.to_string();
        }
        let mut room = filled(operation(bare), &model::answer(bare));
        let place = self.random().below(6);
        match self.random().below(5) {
            0 => {}
            1 | 2 => room[place] = room[place].saturating_sub(1),
            3 => {
                let exact = room[place];
                room = [10_000; 6];
                room[place] = exact.saturating_sub(self.maker.random.bits() & 1);
            }
            _ => room[place] = self.random().pick(&[0, 1, 7, 1 << 32, 1 << 63, u64::MAX]),
        }
        format!("room={} {bare}", room.map(|number| number.to_string()).join(","))
    }
}

#[cfg(test)]
mod tests {
    use super::*;
    use crate::coverage::Coverage;
    use calls::OPERATIONS;
    use differ::judge::kind;

    /// A corpus of some of the generator's calls, and calls made of it.
    fn made_of(seed: u64, count: usize) -> Vec<String> {
        let mut corpus = Corpus::new(&OPERATIONS, Coverage::of_edges(300));
        let mut mutator = Mutator::new(seed, &OPERATIONS);
        for edge in 0..300 {
            let call = mutator.made(OPERATIONS[edge as usize % OPERATIONS.len()]);
            corpus.offer(&call, &[(edge, 1)], kind(&model::answer(&call)));
        }
        (0..count).map(|_| mutator.call(&corpus)).collect()
    }

    #[test]
    fn a_seed_gives_the_same_calls() {
        assert_eq!(made_of(3, 50), made_of(3, 50));
        assert_ne!(made_of(3, 50), made_of(4, 50));
    }

    #[test]
    fn most_are_calls_still_and_some_are_answered_well() {
        let calls = made_of(5, 800);
        assert!(
            calls.iter().all(|call| !call.is_empty() && !call.starts_with('#')),
            "a line that gets no answer"
        );
        let kinds: Vec<String> = calls.iter().map(|call| kind(&model::answer(call))).collect();
        let count = |wanted: &str| kinds.iter().filter(|kind| *kind == wanted).count();
        assert!(count("unknown") < calls.len() / 8, "{} are no calls", count("unknown"));
        assert!(count("ok") > calls.len() / 4, "{} are answered well", count("ok"));
        for operation in OPERATIONS {
            let of = calls.iter().filter(|call| super::operation(call) == operation).count();
            assert!(of > calls.len() / 20, "{of} calls of {operation}");
        }
    }
}
