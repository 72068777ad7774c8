//! A second implementation of document 01, over plain lists, written from the document and from
//! our readings of it alone. It shares no line with the port, with the oracle, or with slatedb.
//! Where the original Rust has no answer (the added refusals, room, MessagePack) this is what
//! the port is held against.

mod borrows;
mod keys;
mod law;
mod merge;
mod pack;
mod parse;
mod project;
mod records;
mod segments;
mod union;
mod unpack;
mod words;

pub use words::answer;

/// A refusal: its number and its place.
#[derive(Debug, PartialEq)]
pub struct Refused(pub u32, pub usize);

pub type Outcome<T> = Result<T, Refused>;
