//! Links the C archive of the proved calls, from the folder that `LAMBDAC_LIB` names or else from where
//! `rt lib` writes it.

use std::path::PathBuf;

fn main() {
    let built = || PathBuf::from(concat!(env!("CARGO_MANIFEST_DIR"), "/../../crates/capi/out"));
    let folder = std::env::var_os("LAMBDAC_LIB").map_or_else(built, PathBuf::from);
    let archive = folder.join("libcapi.a");
    println!("cargo::rerun-if-env-changed=LAMBDAC_LIB");
    println!("cargo::rerun-if-changed={}", archive.display());
    if !archive.is_file() {
        println!("cargo::error={} is missing; build it first: rt lib in crates/capi", archive.display());
    }
    println!("cargo::rustc-link-search=native={}", folder.display());
    println!("cargo::rustc-link-lib=static=capi");
}
