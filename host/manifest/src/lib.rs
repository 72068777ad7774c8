//! Manifests of an archive: the proved functions of `crates/exports` and `crates/exports_union`, safe to call from Rust.
//!
//! All working memory is in a [`Lent`], made once and used for any number of calls; a call allocates nothing but the
//! bytes of its arguments. `include/manifest.h` says what each entry point promises.

// In it a pointer and its length stand on one line.
#[rustfmt::skip]
pub mod c;
mod calls;
mod lent;
mod numbers;
mod refusal;
mod values;

pub use lent::{Lent, ENCODED, SOURCES};
pub use refusal::Refusal;
pub use values::{Filter, Insertion, Keys, Projection, Room, Selection, Source, Tree};
