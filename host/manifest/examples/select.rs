//! Which segments of a manifest hold keys from one key on, up to but not including another, and how long it is written anew:
//!   select samples/north.mp ct/12/001 ct/19/

use manifest::{Lent, Room, Selection};
use std::ops::Bound;

pub fn main() {
    let words: Vec<String> = std::env::args().skip(1).collect();
    let [file, from, to] = &words[..] else {
        eprintln!("usage: select FILE FROM TO");
        std::process::exit(2);
    };
    let manifest = std::fs::read(file).expect("a file that can be read");
    let mut lent = Lent::new();
    match lent.select(&manifest, Bound::Included(from.as_bytes()), Bound::Excluded(to.as_bytes())) {
        Ok(Selection::Unsegmented) => println!("unsegmented"),
        Ok(Selection::Window(window)) => println!("window {} {}", window.start, window.end),
        Err(refusal) => println!("refused: {refusal}"),
    }
    match lent.read(&manifest, &Room::L1) {
        Ok(anew) => println!("{} bytes anew", anew.len()),
        Err(refusal) => println!("refused: {refusal}"),
    }
}
