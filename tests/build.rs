//! Links the kit's C interface, the static library `capi`, and writes the
//! finder's sources as Rust for the tests that alter them.

use std::env;
use std::path::{Path, PathBuf};

#[path = "build/port.rs"]
mod port;

/// Names a folder with another static library than the one of this tree.
const OTHER_LIBRARY: &str = "LEVERPEACH_LIBRARY";

/// Has the static library linked, and the tests told where it is.
fn link_library(package: &Path) {
    println!("cargo:rerun-if-env-changed={OTHER_LIBRARY}");
    let own = || package.join("..").join("target").join("staticlib");
    let directory = env::var_os(OTHER_LIBRARY).map_or_else(own, PathBuf::from);
    let archive = directory.join("libcapi.a");
    println!("cargo:rerun-if-changed={}", archive.display());
    assert!(
        archive.is_file(),
        "{} is missing: build it with scripts/build staticlib capi",
        archive.display()
    );
    println!("cargo:rustc-link-search=native={}", directory.display());
    println!("cargo:rustc-link-lib=static=capi");
    println!("cargo:rustc-env=LEVERPEACH_ARCHIVE={}", archive.display());
}

/// A folder that cargo names by an environment variable.
fn folder(variable: &str) -> PathBuf {
    PathBuf::from(env::var_os(variable).unwrap_or_else(|| panic!("cargo sets no {variable}")))
}

fn main() {
    let package = folder("CARGO_MANIFEST_DIR");
    link_library(&package);
    port::write(
        &package.join("..").join("crates"),
        &folder("OUT_DIR").join("port.rs"),
    );
}
