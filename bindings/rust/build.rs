//! Finds `libsiphonbard.a`: in the folder that SIPHONBARD_LIB_DIR names, else where `tools/archive` writes it.

use std::env;
use std::path::PathBuf;

fn main() {
    println!("cargo:rerun-if-env-changed=SIPHONBARD_LIB_DIR");
    let folder = match env::var_os("SIPHONBARD_LIB_DIR") {
        Some(folder) => PathBuf::from(folder),
        None => PathBuf::from(env::var_os("CARGO_MANIFEST_DIR").unwrap()).join("../../target/staticlib"),
    };
    println!("cargo:rerun-if-changed={}", folder.join("libsiphonbard.a").display());
    println!("cargo:rustc-link-search=native={}", folder.display());
    println!("cargo:rustc-link-lib=static=siphonbard");
}
