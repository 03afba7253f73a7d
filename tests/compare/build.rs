//! Links the port, which `bash tests/build library` writes to target/staticlib in the repository. The variable
//! ARROW_TYPES_LIB may name another folder, as for bindings/rust.

use std::path::PathBuf;

const FOLDER: &str = "ARROW_TYPES_LIB";

fn main() {
    println!("cargo:rerun-if-env-changed={FOLDER}");
    if std::env::var_os("CARGO_FEATURE_SUBJECT").is_some() {
        let folder = folder().display().to_string();
        println!("cargo:rustc-link-search=native={folder}");
        println!("cargo:rustc-link-lib=static=arrow_types");
        println!("cargo:rerun-if-changed={folder}/libarrow_types.a");
    }
}

/// The folder that has the library; a relative one is seen from here, where cargo is started.
fn folder() -> PathBuf {
    let home = std::env::var_os("CARGO_MANIFEST_DIR").expect("cargo sets it");
    let named = std::env::var_os(FOLDER).filter(|folder| !folder.is_empty());
    PathBuf::from(home).join(named.unwrap_or("../../target/staticlib".into()))
}
