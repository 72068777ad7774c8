//! Calls of the line protocol, made to meet the corners of document 01: small alphabets, so that
//! prefixes nest, keys collide and ids are shared; every limit of L1; damaged bytes; lent rooms. It
//! shares no line with the port, the oracle or the model.

mod damage;
mod history;
mod limits;
mod manifests;
mod operations;
mod random;
mod records;
mod short;
mod value;

pub use history::History;
pub use manifests::Maker;
pub use operations::OPERATIONS;
pub use random::Random;
pub use short::short;
pub use value::{decode, from_hex, to_hex, Value};

#[derive(Clone, Copy, Default)]
pub struct Style {
    /// About one call in eight breaks something: a limit, a law, its bytes, its room.
    pub spoilt: bool,
    /// No visible range starts excluded, as the real bodies cannot load one.
    pub included: bool,
}

/// An endless row of calls of one operation; the same seed gives the same row.
pub fn random(seed: u64, operation: &'static str, style: Style) -> impl Iterator<Item = String> {
    let name = operation.bytes().fold(0, |sum: u64, byte| sum.wrapping_mul(31).wrapping_add(byte.into()));
    let mut maker = Maker::new(Random::new(seed ^ name << 32), style);
    std::iter::from_fn(move || Some(maker.call(operation)))
}
