//! Passes on whether dew's source is beside the repository.

fn main() {
    println!("cargo::rustc-check-cfg=cfg(dew)");
    println!("cargo::rerun-if-changed=build.rs");
    if std::env::var_os("DEP_DEW_PRESENT").is_some() {
        println!("cargo::rustc-cfg=dew");
    }
}
