//! Lays out the crate's source: the original's files, checked against sha256.txt, with the files of `missing` between them.
//!
//! The original's files are read from the folder that PORUWHINA_ORIGINAL names, by default `../shared/docs/src` beside the repository.
//! They are copied to the build folder, since `utils/mod.rs` names files that must lie next to it and are missing.

use std::fs;
use std::path::{Path, PathBuf};
use std::process::Command;

fn main() {
    println!("cargo:rerun-if-env-changed=PORUWHINA_ORIGINAL");
    println!("cargo:rerun-if-changed=sha256.txt");
    println!("cargo:rerun-if-changed=missing");
    let here = PathBuf::from(std::env::var("CARGO_MANIFEST_DIR").unwrap());
    let out = PathBuf::from(std::env::var("OUT_DIR").unwrap());
    let folder = std::env::var("PORUWHINA_ORIGINAL").map_or_else(|_| here.join("../../../shared/docs/src"), PathBuf::from);
    let sums = here.join("sha256.txt");
    check(&folder, &sums);
    for line in fs::read_to_string(&sums).unwrap().lines() {
        let name = line.split_whitespace().nth(1).unwrap();
        println!("cargo:rerun-if-changed={}", folder.join(name).display());
        copy(&folder.join(name), &out.join(name));
    }
    for name in ["bitmap/mod.rs", "bitmap/utils/chunks_exact_mut.rs", "bitmap/utils/fmt.rs", "bitmap/utils/zip_validity.rs", "types/mod.rs"]
    {
        copy(&here.join("missing").join(name), &out.join("src").join(name));
    }
    let module = |name: &str, file: &str| format!("#[path = {:?}]\npub mod {name};\n", out.join("src").join(file));
    let modules = [("bitmap", "bitmap/mod.rs"), ("trusted_len", "trusted_len.rs"), ("types", "types/mod.rs")];
    let text: String = modules.iter().map(|(name, file)| module(name, file)).collect();
    fs::write(out.join("modules.rs"), text).unwrap();
}

/// Stops the build if a file is absent or is not the one that was compared.
fn check(folder: &Path, sums: &Path) {
    if !folder.is_dir() {
        panic!("no folder {}: set PORUWHINA_ORIGINAL to the one that holds src/bitmap of polars-arrow 0.55.2", folder.display());
    }
    let answer = Command::new("sha256sum").args(["--check", "--quiet"]).arg(sums).current_dir(folder).output();
    let answer = answer.expect("sha256sum runs");
    if !answer.status.success() {
        panic!("{} does not hold the files of sha256.txt:\n{}", folder.display(), String::from_utf8_lossy(&answer.stdout));
    }
}

fn copy(from: &Path, to: &Path) {
    fs::create_dir_all(to.parent().unwrap()).unwrap();
    fs::copy(from, to).unwrap_or_else(|error| panic!("{}: {error}", from.display()));
}
