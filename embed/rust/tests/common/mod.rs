//! The examples of the repository, below GEYSERPAN_EXAMPLES; none where that isn't set.
use geyserpan::Terms;
use std::{env, fs};

/// The bytes of an example's file.
pub fn file(name: &str) -> Option<Vec<u8>> {
    fs::read(format!("{}/{name}", env::var("GEYSERPAN_EXAMPLES").ok()?)).ok()
}

/// All that can be granted.
pub fn most() -> Terms {
    Terms::new().turns(u64::MAX).output(u64::MAX)
}
