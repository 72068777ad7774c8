//! host/build links the program as one of C, so C's `main` calls the example's.

#[cfg(feature = "program")]
#[path = "../../manifest/examples/select.rs"]
mod select;

#[cfg(feature = "program")]
#[no_mangle]
pub extern "C" fn main(_: std::os::raw::c_int, _: *const *const std::os::raw::c_char) -> std::os::raw::c_int {
    select::main();
    0
}
