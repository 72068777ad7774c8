//! The oracle, one call a line.

fn main() -> std::io::Result<()> {
    oracle::serve()
}
