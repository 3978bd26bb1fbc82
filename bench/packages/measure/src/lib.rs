//! What the two programs share.
pub mod matrices;
pub mod rounds;
