//! Finds libpcompact.a: in the folder that PCOMPACT_LIB names, or in dist/ of the repository.

use std::env;
use std::path::PathBuf;

fn main() {
    println!("cargo:rerun-if-env-changed=PCOMPACT_LIB");
    let beside = || PathBuf::from(env::var_os("CARGO_MANIFEST_DIR").unwrap()).join("../../dist");
    let folder = env::var_os("PCOMPACT_LIB").map_or_else(beside, PathBuf::from);
    println!(
        "cargo:rerun-if-changed={}",
        folder.join("libpcompact.a").display()
    );
    println!("cargo:rustc-link-search=native={}", folder.display());
    println!("cargo:rustc-link-lib=static=pcompact");
}
