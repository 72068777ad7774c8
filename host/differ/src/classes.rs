//! Where slatedb's own bodies differ from document 01's stand-ins: each difference is put down to the
//! fewest rules that explain it, and the smallest call of each class is shown.

use crate::judge::{kind, operation};
use crate::show::{show, show_answer};
use crate::shrink::shrink;
use std::collections::BTreeMap;

/// The letters of the rules, as the oracle names them.
const LETTERS: &str = "bnvpxe";

/// All sets of rules, the smaller ones first.
fn rule_sets() -> Vec<String> {
    let set = |bits: u32| {
        LETTERS.chars().enumerate().filter(|(i, _)| bits >> i & 1 == 1).map(|(_, letter)| letter).collect()
    };
    let mut sets: Vec<String> = (0..1 << LETTERS.len()).map(set).collect();
    sets.sort_by_key(String::len);
    sets
}

/// The rules, and what the difference looks like: operation, the stand-ins' answer, the real bodies'.
type Class = (String, (String, String, String));

/// What a difference looks like, if there is one.
fn look(call: &str) -> Option<(String, String, String)> {
    let (standin, real) = (oracle::answer(call), oracle_real::answer(call));
    let told = if real.starts_with("panic") { real.clone() } else { kind(&real) };
    (standin != real).then(|| (operation(call).to_string(), kind(&standin), told))
}

/// The fewest rules of the real bodies that make the stand-ins answer like them.
fn rules(call: &str, sets: &[String]) -> String {
    let real = oracle_real::answer(call);
    let explains = |letters: &&String| oracle::answer_with(letters, call) == real;
    sets.iter().find(explains).map_or("?".to_string(), String::clone)
}

/// Prints the classes; whether every difference was explained.
pub fn classes(calls: impl Iterator<Item = String>) -> bool {
    let sets = rule_sets();
    let mut found: BTreeMap<Class, (usize, String)> = BTreeMap::new();
    let (mut compared, mut different) = (0, 0);
    for call in calls {
        compared += 1;
        if let Some(look) = look(&call) {
            different += 1;
            let class = (rules(&call, &sets), look);
            let (count, smallest) = found.entry(class).or_insert((0, call.clone()));
            *count += 1;
            if call.len() < smallest.len() {
                *smallest = call;
            }
        }
    }
    println!("calls {compared}, different {different}, classes {}", found.len());
    for (class, (count, call)) in &found {
        let (why, look) = class;
        let alike = |call: &String| self::look(call).as_ref() == Some(look) && rules(call, &sets) == *why;
        let small = shrink(call, 1, |calls| calls.iter().position(alike));
        let (operation, standin, real) = look;
        println!("\nrules {why} | {operation} | {standin} | {real} | {count} calls");
        println!("  {}", show(&small));
        println!("  stand-ins: {}", show_answer(&oracle::answer(&small)));
        println!("  real:      {}", show_answer(&oracle_real::answer(&small)));
        println!("  {small}");
    }
    found.keys().all(|class| class.0 != "?")
}
