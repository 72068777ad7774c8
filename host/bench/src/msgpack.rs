//! msgpack-c, where it is linked: bytes into its tree of values, and that into bytes again.

#[cfg(feature = "msgpack")]
mod linked {
    extern "C" {
        fn msgpack_read(bytes: *const u8, length: usize) -> usize;
        fn msgpack_read_and_write(bytes: *const u8, length: usize) -> usize;
        fn msgpack_hold(bytes: *const u8, length: usize) -> usize;
        fn msgpack_write_held() -> usize;
    }

    /// 1, or 0 if it could not be read.
    pub fn read(bytes: &[u8]) -> usize {
        unsafe { msgpack_read(bytes.as_ptr(), bytes.len()) }
    }

    /// How many bytes it wrote.
    pub fn read_and_write(bytes: &[u8]) -> usize {
        unsafe { msgpack_read_and_write(bytes.as_ptr(), bytes.len()) }
    }

    /// Keeps the tree of these bytes, which must outlive every `write_held`. There is one at a time.
    pub fn hold(bytes: &[u8]) -> usize {
        unsafe { msgpack_hold(bytes.as_ptr(), bytes.len()) }
    }

    /// How many bytes it wrote of the tree that it holds.
    pub fn write_held() -> usize {
        unsafe { msgpack_write_held() }
    }
}

#[cfg(feature = "msgpack")]
pub use linked::*;
