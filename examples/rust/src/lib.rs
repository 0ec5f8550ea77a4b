// The C library from Rust, and a second implementation to compare it with.
pub mod calls;
pub mod generate;
pub mod model;
pub mod random;
