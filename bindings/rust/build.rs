//! Links the proved planner's static library.

use std::env;
use std::path::{Path, PathBuf};

/// Where `bindings/library` leaves it, from this package.
const IN_THE_REPOSITORY: &str = "../../target/staticlib";

/// Another folder that holds it.
const OTHER_FOLDER: &str = "SOVDRINGA_LIB_DIR";

fn main() {
    println!("cargo::rerun-if-changed=build.rs");
    println!("cargo::rerun-if-env-changed={OTHER_FOLDER}");
    let package = env::var_os("CARGO_MANIFEST_DIR").expect("cargo names the package's folder");
    let folder = env::var_os(OTHER_FOLDER).map_or_else(
        || Path::new(&package).join(IN_THE_REPOSITORY),
        PathBuf::from,
    );
    let target = ["CARGO_CFG_TARGET_ARCH", "CARGO_CFG_TARGET_OS"]
        .map(|name| env::var(name).unwrap_or_default());
    if target != ["x86_64", "linux"] {
        println!(
            "cargo::error=the planner's library is for x86-64 Linux, and this build is for {}",
            target.join(" ")
        );
        std::process::exit(1);
    }
    let archive = folder.join("libsovdringa.a");
    // A path that does not exist makes cargo look again at the next build.
    println!("cargo::rerun-if-changed={}", archive.display());
    if !archive.is_file() {
        println!(
            "cargo::error={} is not there: make it with `bindings/library` in the repository, \
             or name its folder in {OTHER_FOLDER}",
            archive.display()
        );
        std::process::exit(1);
    }
    let folder = folder.canonicalize().expect("the folder holds the library");
    println!("cargo::rustc-link-search=native={}", folder.display());
    println!("cargo::rustc-link-lib=static=sovdringa");
}
