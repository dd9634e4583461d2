//! Links the static archive from the directory that CRUDVIM_LIB names. Without it the crate still builds, so that the oracle's own
//! tests run; the commands that call the archive then say what is missing.

use std::path::Path;

/// The archive is `lib` + this + `.a`.
const ARCHIVE: &str = "crudvim";

fn main() {
    println!("cargo:rerun-if-changed=build.rs");
    println!("cargo:rerun-if-env-changed=CRUDVIM_LIB");
    println!("cargo:rustc-check-cfg=cfg(crudvim_archive)");
    let Ok(directory) = std::env::var("CRUDVIM_LIB") else {
        return;
    };
    let file = Path::new(&directory).join(format!("lib{ARCHIVE}.a"));
    println!("cargo:rerun-if-changed={}", file.display());
    assert!(file.is_file(), "{} is missing; CRUDVIM_LIB has to be an absolute path", file.display());
    println!("cargo:rustc-link-search=native={directory}");
    println!("cargo:rustc-link-lib=static={ARCHIVE}");
    println!("cargo:rustc-cfg=crudvim_archive");
}
