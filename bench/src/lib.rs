//! What the benchmark measures with: its claims, the call's operations in plain Rust, claims as MONA reads them, and CPU times.

pub mod claims;
pub mod figures;
pub mod mona;
pub mod mona_rows;
pub mod plain;
pub mod samples;
pub mod usage;
