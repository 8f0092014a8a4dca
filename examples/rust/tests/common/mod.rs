//! Where the project's problem files are.

use std::path::PathBuf;

/// The path of a file in the folder `cases`.
pub fn path(name: &str) -> PathBuf {
    PathBuf::from(env!("CARGO_MANIFEST_DIR")).join("../../cases").join(name)
}
