//! The paper of the message handler as plain Rust, a generator of inputs for it, and the proved library beside it.

pub mod boundary;
pub mod compare;
pub mod library;
pub mod model;
pub mod random;
