//! Links libpipeshear.a from target/staticlib of the repository, or from the folder that PIPESHEAR_LIB_DIR names.

use std::env;
use std::path::{Path, PathBuf};
use std::process::exit;

fn main() {
    let folder = folder();
    let library = folder.join("libpipeshear.a");
    println!("cargo:rerun-if-env-changed=PIPESHEAR_LIB_DIR");
    println!("cargo:rerun-if-changed={}", library.display());
    if !library.is_file() {
        eprintln!("{} is not there.", library.display());
        eprintln!("Run `tests/made library` in the repository, or set PIPESHEAR_LIB_DIR to the library's folder.");
        exit(1);
    }
    println!("cargo:rustc-link-search=native={}", folder.display());
    println!("cargo:rustc-link-lib=static=pipeshear");
}

/// The library's folder; a relative path starts at the repository's folder, the one above this package.
fn folder() -> PathBuf {
    let package = env::var_os("CARGO_MANIFEST_DIR").unwrap_or_default();
    let repository = Path::new(&package).parent().unwrap_or(Path::new(".."));
    repository.join(env::var_os("PIPESHEAR_LIB_DIR").unwrap_or("target/staticlib".into()))
}
