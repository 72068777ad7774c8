//! The program `bench`: `bench SAMPLE` prints the table, and `bench --growth` how the times grow.

use std::os::raw::{c_char, c_int};

/// C's `main`, and not Rust's, since host/build links the program as one of C.
#[no_mangle]
pub extern "C" fn main(_: c_int, _: *const *const c_char) -> c_int {
    let argument = std::env::args().nth(1).unwrap_or_default();
    if argument == "--growth" {
        print!("{}", crate::growth());
        return 0;
    }
    match std::fs::read(&argument) {
        Ok(near) => {
            print!("{}", crate::table(&near));
            0
        }
        Err(_) => {
            eprintln!("usage: bench SAMPLE, or bench --growth");
            2
        }
    }
}
