// SPDX-License-Identifier: MIT OR Apache-2.0
//! Finds m019_namco163.rs and memory.rs and writes the lines that compile them where they lie.

use std::{
    env, fs,
    path::{Path, PathBuf},
};

/// Where the sources lie if TETANES_SRC is not set, seen from this crate: beside the repository.
const BESIDE_REPOSITORY: &str = "../../../shared/docs/src";

/// Module name and path below the folder, without the ending.
const SOURCES: [(&str, &str); 2] = [("m019_namco163", "src/mapper/m019_namco163"), ("memory", "src/memory")];

fn main() {
    println!("cargo::rerun-if-env-changed=TETANES_SRC");
    println!("cargo::rerun-if-changed=build.rs");
    match module_lines() {
        Ok(lines) => {
            let out = PathBuf::from(env::var_os("OUT_DIR").expect("cargo sets OUT_DIR"));
            fs::write(out.join("sources.rs"), lines).expect("OUT_DIR can be written");
        }
        Err(message) => println!("cargo::error={message}"),
    }
}

fn module_lines() -> Result<String, String> {
    let folder = source_folder()?;
    let mut lines = String::new();
    for (module, path) in SOURCES {
        let file = find(&folder, path)?;
        println!("cargo::rerun-if-changed={}", file.display());
        // The sources are not ours to tidy, so their warnings are silenced, and theirs only.
        lines += &format!("#[allow(warnings)]\n#[path = {:?}]\npub mod {module};\n", file.display().to_string());
    }
    Ok(lines)
}

fn source_folder() -> Result<PathBuf, String> {
    let folder = match env::var_os("TETANES_SRC") {
        Some(set) if Path::new(&set).is_relative() => return Err("TETANES_SRC must be an absolute path".into()),
        Some(set) => PathBuf::from(set),
        None => Path::new(env!("CARGO_MANIFEST_DIR")).join(BESIDE_REPOSITORY),
    };
    folder.canonicalize().map_err(|_| format!("no folder {}; set TETANES_SRC to the folder that holds src/memory.rs", folder.display()))
}

fn find(folder: &Path, path: &str) -> Result<PathBuf, String> {
    ["rs", "rs.txt"]
        .map(|ending| folder.join(format!("{path}.{ending}")))
        .into_iter()
        .find(|file| file.is_file())
        .ok_or(format!("no {path}.rs or {path}.rs.txt in {}; set TETANES_SRC", folder.display()))
}
