//! Finds libhourbracken.a, which holds the proved calls. Without it the crate is checked and documented, and not
//! linked.

use std::env::{var, var_os};
use std::path::PathBuf;

fn main() {
    println!("cargo:rerun-if-env-changed=HOURBRACKEN_LIB");
    if var_os("CARGO_FEATURE_ARCHIVE").is_none() {
        return;
    }
    let is = |name: &str, value: &str| var(name).is_ok_and(|found| found == value);
    if !(is("CARGO_CFG_TARGET_ARCH", "x86_64") && is("CARGO_CFG_TARGET_OS", "linux")) {
        println!(
            "cargo:warning=libhourbracken.a is for x86-64 Linux alone: build with --target x86_64-unknown-linux-gnu"
        );
    }
    let folder = match var_os("HOURBRACKEN_LIB") {
        Some(folder) => PathBuf::from(folder),
        None => PathBuf::from(var_os("CARGO_MANIFEST_DIR").unwrap_or_default()).join("../target/staticlib"),
    };
    let archive = folder.join("libhourbracken.a");
    println!("cargo:rerun-if-changed={}", archive.display());
    if !archive.is_file() {
        println!(
            "cargo:warning={} is not there, so nothing links: run scripts/archive in the repository, or name its \
             folder in HOURBRACKEN_LIB",
            archive.display()
        );
    }
    println!("cargo:rustc-link-search=native={}", folder.display());
    println!("cargo:rustc-link-lib=static=hourbracken");
}
