//! Finds the archive of the verified library, or has it built, and links it.

use std::env;
use std::path::{Path, PathBuf};
use std::process::Command;

const ARCHIVE: &str = "libstripplates.a";

fn main() {
    println!("cargo:rerun-if-changed=build.rs");
    println!("cargo:rerun-if-env-changed=PLATES_LIB_DIR");
    let folder = match env::var_os("PLATES_LIB_DIR") {
        Some(folder) => PathBuf::from(folder),
        None => built_folder(),
    };
    println!(
        "cargo:rerun-if-changed={}",
        folder.join(ARCHIVE).to_string_lossy()
    );
    println!(
        "cargo:rustc-link-search=native={}",
        folder.to_string_lossy()
    );
    println!("cargo:rustc-link-lib=static=stripplates");
}

/// The folder that `tools/archive` writes to; it is run if the archive is not there.
fn built_folder() -> PathBuf {
    let package = env::var_os("CARGO_MANIFEST_DIR").expect("cargo sets CARGO_MANIFEST_DIR");
    let root = Path::new(&package)
        .parent()
        .expect("the package stands in the repository root")
        .to_path_buf();
    let folder = root.join("target").join("staticlib");
    if !folder.join(ARCHIVE).is_file() {
        build_archive(&root);
    }
    folder
}

/// Proves the library and writes the archive.
fn build_archive(root: &Path) {
    let status = Command::new(root.join("tools").join("archive"))
        .status()
        .expect("tools/archive is needed to build libstripplates.a, or PLATES_LIB_DIR to find it");
    assert!(status.success(), "tools/archive failed: {status}");
}
