//! The proved engine (crates/trial, crates/speed) beside the reference engine.

pub mod captures;
pub mod desk_runs;
pub mod engine;
pub mod environment;
pub mod script;
pub mod transcripts;
pub mod words;

pub use script::{Script, Step, What};

use std::path::{Path, PathBuf};

/// Where a program stands: the proved one as `make programs` leaves it, and the reference's.
pub fn programs(name: &str) -> [PathBuf; 2] {
    let root = Path::new(env!("CARGO_MANIFEST_DIR"));
    ["../../target/bin", "../reference/target/release"].map(|folder| root.join(folder).join(name))
}
