//! The oracle with slatedb's own bodies, one call a line.

fn main() -> std::io::Result<()> {
    oracle_real::serve()
}
