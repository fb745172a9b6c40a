//! The repository that the package stands in.
use std::path::{Path, PathBuf};

/// A path below the repository's root.
pub fn path(below: &str) -> PathBuf {
    Path::new(env!("CARGO_MANIFEST_DIR")).join("..").join(below)
}
