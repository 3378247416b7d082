//! Links `libyaslaurel.a`, from the first of these folders that has it: the one that the variable `YASLAUREL_LIB` names
//! (then no other is asked), `target/lib` of the repository, where `make lib` leaves it, the `lib` of a release, the `lib`
//! beside the `share` in which `make install` has put this crate, and what pkg-config says.

use std::env;
use std::path::{Path, PathBuf};
use std::process::Command;

const ARCHIVE: &str = "libyaslaurel.a";

/// The folder that pkg-config knows the library in.
fn told_by_pkg_config() -> Option<PathBuf> {
    let output = Command::new("pkg-config").args(["--variable=libdir", "yaslaurel"]).output().ok()?;
    let folder = String::from_utf8(output.stdout).ok()?;
    output.status.success().then(|| PathBuf::from(folder.trim()))
}

/// The folder of the library, if `YASLAUREL_LIB` does not name it.
fn found(here: &Path) -> PathBuf {
    let made = here.join("../../target/lib");
    let released = here.join("../../lib");
    let installed = here.join("../../../lib");
    let folders = [made.clone(), released, installed].into_iter().chain(told_by_pkg_config());
    match folders.into_iter().find(|folder| folder.join(ARCHIVE).exists()) {
        Some(folder) => folder,
        None => {
            println!("cargo:warning={ARCHIVE} was not found: `make lib` makes it, YASLAUREL_LIB names its folder");
            made
        }
    }
}

fn main() {
    let here = PathBuf::from(env::var("CARGO_MANIFEST_DIR").expect("cargo names the crate's folder"));
    let folder = env::var("YASLAUREL_LIB").map_or_else(|_| found(&here), PathBuf::from);
    println!("cargo:rerun-if-env-changed=YASLAUREL_LIB");
    println!("cargo:rerun-if-env-changed=PKG_CONFIG_PATH");
    println!("cargo:rerun-if-changed={}", folder.join(ARCHIVE).display());
    println!("cargo:rustc-link-search=native={}", folder.display());
    println!("cargo:rustc-link-lib=static=yaslaurel");
}
