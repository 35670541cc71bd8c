// SPDX-License-Identifier: MIT OR Apache-2.0
//! Links libhost.a, from the folder that HOST_ARCHIVE names, else from the repository's target/staticlib.

use std::{
    env,
    path::{Path, PathBuf},
};

/// Seen from this crate.
const IN_REPOSITORY: &str = "../../target/staticlib";

fn main() {
    println!("cargo::rerun-if-env-changed=HOST_ARCHIVE");
    println!("cargo::rerun-if-changed=build.rs");
    let folder = match env::var_os("HOST_ARCHIVE") {
        Some(set) => PathBuf::from(set),
        None => Path::new(env!("CARGO_MANIFEST_DIR")).join(IN_REPOSITORY),
    };
    let archive = folder.join("libhost.a");
    println!("cargo::rerun-if-changed={}", archive.display());
    if !archive.is_file() || folder.is_relative() {
        println!("cargo::error=no {}; `scripts/archive` makes it, HOST_ARCHIVE names its folder by an absolute path", archive.display());
        return;
    }
    println!("cargo::rustc-link-search=native={}", folder.display());
    println!("cargo::rustc-link-lib=static=host");
}
