//! Link lines for the two features; without a feature there is nothing to do.

use std::env;

fn main() {
    println!("cargo:rerun-if-changed=build.rs");
    println!("cargo:rerun-if-env-changed=AQSURVEL_LIB_DIR");
    for (feature, library) in [("LINKED", "aqsurvel"), ("LEAVES", "leaves")] {
        if env::var_os(format!("CARGO_FEATURE_{feature}")).is_some() {
            link(library);
        }
    }
}

fn link(library: &str) {
    let folder = env::var("AQSURVEL_LIB_DIR").expect("AQSURVEL_LIB_DIR names the archive's folder");
    println!("cargo:rustc-link-search=native={folder}");
    println!("cargo:rustc-link-lib=static={library}");
    println!("cargo:rerun-if-changed={folder}/lib{library}.a");
}
