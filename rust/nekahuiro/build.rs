//! Links the proved static library, and those of edition 2 and of pages that can tear where they are asked for.
//! NEKAHUIRO_LIB_DIR names another folder than the repository's.

use std::path::{Path, PathBuf};

fn main() {
    println!("cargo::rerun-if-env-changed=NEKAHUIRO_LIB_DIR");
    let here = PathBuf::from(std::env::var_os("CARGO_MANIFEST_DIR").unwrap_or_default());
    let folder = match std::env::var_os("NEKAHUIRO_LIB_DIR") {
        Some(folder) => PathBuf::from(folder),
        // This crate stands two folders below the root of the repository.
        None => here.ancestors().nth(2).unwrap_or(&here).join("target/staticlib"),
    };
    println!("cargo::rustc-link-search=native={}", folder.display());
    link(&folder, "nekahuiro");
    for (feature, name) in [("EDITION2", "nekahuiro_edition2"), ("PAIRS", "nekahuiro_pairs")] {
        if std::env::var_os(format!("CARGO_FEATURE_{feature}")).is_some() {
            link(&folder, name);
        }
    }
}

fn link(folder: &Path, name: &str) {
    let archive = folder.join(format!("lib{name}.a"));
    println!("cargo::rerun-if-changed={}", archive.display());
    if !archive.is_file() {
        println!("cargo::error=the proved library {} is missing", archive.display());
        println!("cargo::error=make it with `tools/archives {name}` at the root of the repository,");
        println!("cargo::error=or set NEKAHUIRO_LIB_DIR to the folder that holds lib{name}.a");
        std::process::exit(1);
    }
    println!("cargo::rustc-link-lib=static={name}");
}
