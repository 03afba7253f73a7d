//! Links the proved library, which `bash tests/build library` writes to target/staticlib in the repository. The variable
//! ARROW_TYPES_LIB may name another folder: a relative one from where cargo was started; an empty one counts as none.
//!
//! Where the repository is around the crate, `repository` is set for its tests, and a warning says if a source is newer
//! than the library.

use std::ffi::OsString;
use std::fs;
use std::path::{Path, PathBuf};
use std::time::SystemTime;

const LIBRARY: &str = "libarrow_types.a";

/// The variable that names the folder of the library.
const FOLDER: &str = "ARROW_TYPES_LIB";

fn main() {
    let root = repository();
    println!("cargo:rustc-check-cfg=cfg(repository)");
    if root.is_some() {
        println!("cargo:rustc-cfg=repository");
    }
    let folder = folder();
    let library = folder.join(LIBRARY);
    println!("cargo:rerun-if-changed={}", library.display());
    let Some(built) = modified(&library) else {
        complain(&library);
        std::process::exit(1);
    };
    if let Some(root) = root {
        warn_of_newer(&root, &library, built);
    }
    println!("cargo:rustc-link-search=native={}", folder.display());
    println!("cargo:rustc-link-lib=static=arrow_types");
}

fn complain(library: &Path) {
    eprintln!("There is no {}.", library.display());
    eprintln!("Run `bash tests/build library` in the repository's root, which builds it,");
    eprintln!("or set {FOLDER} to the folder that has {LIBRARY}.");
}

/// The crate's own folder.
fn home() -> PathBuf {
    std::env::var_os("CARGO_MANIFEST_DIR")
        .expect("cargo sets it")
        .into()
}

/// The repository's root, if the crate stands in it.
fn repository() -> Option<PathBuf> {
    let root = home().join("../..").canonicalize().ok()?;
    let stands = root.join("crates.txt").is_file() && root.join("bindings/rust").is_dir();
    stands.then_some(root)
}

/// The folder that has the library.
fn folder() -> PathBuf {
    println!("cargo:rerun-if-env-changed={FOLDER}");
    match std::env::var_os(FOLDER).filter(|folder| !folder.is_empty()) {
        Some(folder) => absolute(folder),
        None => home().join("../../target/staticlib"),
    }
}

/// A folder as seen from where cargo was started: build scripts run in the crate's own.
fn absolute(folder: OsString) -> PathBuf {
    let folder = PathBuf::from(folder);
    if folder.is_absolute() {
        return folder;
    }
    println!("cargo:rerun-if-env-changed=PWD");
    let cargo = std::os::unix::process::parent_id();
    let started_in = fs::read_link(format!("/proc/{cargo}/cwd"))
        .ok()
        .or_else(|| std::env::var_os("PWD").map(PathBuf::from));
    started_in.unwrap_or_else(home).join(folder)
}

fn modified(path: &Path) -> Option<SystemTime> {
    let metadata = fs::metadata(path).ok().filter(|found| found.is_file())?;
    metadata.modified().ok()
}

/// Warns if a source has changed since the library was built.
fn warn_of_newer(root: &Path, library: &Path, built: SystemTime) {
    let sources = sources(root);
    for path in &sources {
        println!("cargo:rerun-if-changed={}", path.display());
    }
    let newer = |file: &PathBuf| modified(file).is_some_and(|changed| changed > built);
    if let Some(source) = sources.into_iter().flat_map(files).find(newer) {
        let source = source.strip_prefix(root).unwrap_or(&source).display();
        let library = library.display();
        println!(
            "cargo:warning={source} is newer than {library}, which may be of older sources; \
             `bash tests/build library` builds the library anew"
        );
    }
}

/// The list of crates, and what stands in the folder of each but `out`, where rt keeps what it makes.
fn sources(root: &Path) -> Vec<PathBuf> {
    let of_crates = entries(&root.join("crates"))
        .into_iter()
        .flat_map(|folder| entries(&folder));
    let sources = of_crates.filter(|path| !path.ends_with("out"));
    std::iter::once(root.join("crates.txt"))
        .chain(sources)
        .collect()
}

/// What stands in a folder: nothing where this is none.
fn entries(folder: &Path) -> Vec<PathBuf> {
    let entries = fs::read_dir(folder).into_iter().flatten().flatten();
    entries.map(|entry| entry.path()).collect()
}

/// A file, or all files below a folder.
fn files(path: PathBuf) -> Vec<PathBuf> {
    if path.is_dir() {
        entries(&path).into_iter().flat_map(files).collect()
    } else {
        vec![path]
    }
}
