//! What the runner is made of, for the fuzzer too.

pub mod classes;
pub mod judge;
pub mod room;
mod run;
pub mod show;
mod shrink;
mod spans;
pub mod speaker;
mod table;
pub mod wrong;

pub use run::Run;
