//! Finds the static library: in the folder that the environment variable PORUWHINA_LIB names, else in the folder `lib` of this crate, where
//! a release has it, else where the repository builds it. If the library is missing, the build stops with a message on how to get it.

use std::env;
use std::path::{Path, PathBuf};

fn main() {
    println!("cargo::rerun-if-env-changed=PORUWHINA_LIB");
    let folder = match env::var_os("PORUWHINA_LIB") {
        Some(folder) => PathBuf::from(folder),
        None => beside(Path::new(&env::var_os("CARGO_MANIFEST_DIR").expect("cargo sets it"))),
    };
    let library = folder.join("libporuwhina.a");
    println!("cargo::rerun-if-changed={}", library.display());
    if !library.is_file() {
        println!(
            "cargo::error=no {}: a release has it in this crate; in the repository run `bindings/library`, or set PORUWHINA_LIB to the \
             folder that has libporuwhina.a",
            library.display()
        );
        return;
    }
    // The compiler would look for a relative folder in another place.
    let folder = folder.canonicalize().expect("the folder of a file that is there");
    println!("cargo::rustc-link-search=native={}", folder.display());
    println!("cargo::rustc-link-lib=static=poruwhina");
}

/// Returns the folder of the library of a release, if this crate is of one, else that of the repository.
fn beside(crate_folder: &Path) -> PathBuf {
    let of_release = crate_folder.join("lib");
    if of_release.is_dir() { of_release } else { crate_folder.join("../../target/staticlib") }
}
