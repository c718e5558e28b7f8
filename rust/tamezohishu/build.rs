//! Finds the archive of the proved library by the repository's layout. It is for x86-64 Linux only.

use std::{env, path::Path};

fn main() {
    println!("cargo::rerun-if-changed=build.rs");
    let is = |name, value| env::var(name).is_ok_and(|v| v == value);
    if !is("CARGO_CFG_TARGET_ARCH", "x86_64") || !is("CARGO_CFG_TARGET_OS", "linux") {
        println!(
            "cargo::error=the proved library is for x86-64 Linux: build by bin/cargo, which sees to that"
        );
        return;
    }
    let here = env::var("CARGO_MANIFEST_DIR").unwrap_or_default();
    let folder = Path::new(&here).join("../../target/staticlib");
    let archive = folder.join("libexport.a");
    println!("cargo::rerun-if-changed={}", archive.display());
    if !archive.is_file() {
        println!(
            "cargo::error=target/staticlib/libexport.a is not there: run `bin/archive` at the repository's root"
        );
        return;
    }
    println!("cargo::rustc-link-search=native={}", folder.display());
    println!("cargo::rustc-link-lib=static=export");
}
