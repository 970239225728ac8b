//! Links libaqsurvel.a from AQSURVEL_LIB_DIR, or from where `tools/archive` puts it.

use std::env;
use std::path::{Path, PathBuf};

fn main() {
    let folder = env::var_os("AQSURVEL_LIB_DIR").map_or_else(made_here, PathBuf::from);
    let archive = folder.join("libaqsurvel.a");
    assert!(
        archive.exists(),
        "{} isn't there: run `tools/archive` or set AQSURVEL_LIB_DIR",
        archive.display()
    );
    println!("cargo:rustc-link-search=native={}", folder.display());
    println!("cargo:rustc-link-lib=static=aqsurvel");
    println!("cargo:rerun-if-changed={}", archive.display());
    println!("cargo:rerun-if-env-changed=AQSURVEL_LIB_DIR");
}

fn made_here() -> PathBuf {
    let package = env::var_os("CARGO_MANIFEST_DIR").expect("cargo sets CARGO_MANIFEST_DIR");
    Path::new(&package).join("../../target/staticlib")
}
