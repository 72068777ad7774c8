//! Stand-in for the crate `log`: arguments are type-checked, nothing is written.

#[macro_export]
macro_rules! debug {
    ($($t:tt)*) => { if false { let _ = format_args!($($t)*); } };
}

#[macro_export]
macro_rules! warn {
    ($($t:tt)*) => { if false { let _ = format_args!($($t)*); } };
}
