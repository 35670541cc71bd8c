// SPDX-License-Identifier: MIT OR Apache-2.0
//! Links the archive that `scripts/archive` makes.

fn main() {
    let root = std::env::var("CARGO_MANIFEST_DIR").expect("cargo sets it");
    println!("cargo:rustc-link-search=native={root}/../../target/staticlib");
    println!("cargo:rustc-link-lib=static=host");
    println!("cargo:rerun-if-changed=../../target/staticlib/libhost.a");
}
