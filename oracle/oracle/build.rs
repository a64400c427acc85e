//! Passes on whether dew's source is there, and counts the tests that need it.

use std::env;
use std::fs;
use std::path::Path;

/// Test files whose every test needs dew begin with these words.
const NEEDS_DEW: &str = "dew_";

fn main() {
    println!("cargo::rustc-check-cfg=cfg(dew)");
    println!("cargo::rerun-if-changed=build.rs");
    println!("cargo::rerun-if-changed=tests");
    if env::var_os("DEP_DEW_PRESENT").is_some() {
        println!("cargo::rustc-cfg=dew");
    }
    println!(
        "cargo::rustc-env=TESTS_THAT_NEED_DEW={}",
        tests_that_need_dew()
    );
}

fn tests_that_need_dew() -> usize {
    let tests =
        Path::new(&env::var_os("CARGO_MANIFEST_DIR").expect("cargo names the crate's place"))
            .join("tests");
    fs::read_dir(tests)
        .expect("the crate has tests")
        .map(|entry| entry.expect("a test file").path())
        .filter(|path| {
            path.file_name()
                .is_some_and(|name| name.to_string_lossy().starts_with(NEEDS_DEW))
        })
        .map(|path| {
            let text = fs::read_to_string(path).expect("a test file is text");
            text.lines().filter(|line| line.trim() == "#[test]").count()
        })
        .sum()
}
