//! Stand-in for src/config.rs, which the real db_state.rs names.

use serde::Serialize;

#[derive(Clone, Copy, PartialEq, Debug, Serialize)]
pub enum CompressionCodec {}
