//! Links the cover test alone, `libcovering.a`, where `make covering` has left it.

use std::env;
use std::path::PathBuf;

fn main() {
    let here = PathBuf::from(env::var("CARGO_MANIFEST_DIR").expect("cargo names the crate's folder"));
    let folder = here.join("../target/staticlib");
    let archive = folder.join("libcovering.a");
    println!("cargo:rustc-check-cfg=cfg(covering)");
    println!("cargo:rerun-if-changed={}", archive.display());
    if archive.exists() {
        println!("cargo:rustc-cfg=covering");
        println!("cargo:rustc-link-search=native={}", folder.display());
        println!("cargo:rustc-link-lib=static=covering");
    }
}
