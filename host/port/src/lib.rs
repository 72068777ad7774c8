//! The port behind the line protocol: the proved functions of `crates/exports` and `crates/exports_union`, called on byte slices.
//! What a call is lent is filled with a pattern, and looked at afterwards: see lent.rs.

#[cfg(test)]
mod faults;
mod given;
mod host;
mod lent;
#[cfg(test)]
mod malformed;
mod operations;
mod pages;
#[cfg(feature = "program")]
mod program;
mod promises;
mod range;
mod slices;
mod words;

pub use operations::OPERATIONS;
pub use pages::use_pages;

use host::Host;
use std::cell::RefCell;
use std::panic::{self, AssertUnwindSafe};

thread_local! {
    static HOST: RefCell<Host> = RefCell::new(Host::default());
}

/// The answer to one call. `broken ..` where the port kept some promise of the entry points badly.
pub fn answer(line: &str) -> String {
    HOST.with(|host| {
        let answered = panic::catch_unwind(AssertUnwindSafe(|| host.borrow_mut().answer(line)));
        // No input ends the program; a fault of the host itself is an answer that nobody else gives.
        answered.unwrap_or_else(|_| "broken: the host panicked".to_string())
    })
}
