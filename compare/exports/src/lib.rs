//! The exports of the static library, and whether they agree with the ported module.

pub mod agreement;
pub mod archive;
pub mod batches;
pub mod guarded;
