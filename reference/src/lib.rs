//! The timing tests of `docs/timing.md` in plain Rust, as a second opinion on the proved code.

pub mod definition;
pub mod fast;
pub mod line;
pub mod question;
pub mod random;
