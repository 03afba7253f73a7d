//! Tests that need the rest of the repository are left out where the crate stands alone, and nowhere else.

use std::path::Path;

#[test]
fn the_repository_is_seen() {
    let root = Path::new(env!("CARGO_MANIFEST_DIR")).join("../..");
    let is_there = root.join("crates.txt").is_file() && root.join("bindings/rust").is_dir();
    assert_eq!(cfg!(repository), is_there);
}
