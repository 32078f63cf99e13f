//! Finds the proved archive, `libexports.a`, and links it.
use std::env;
use std::path::PathBuf;

fn main() {
    println!("cargo::rerun-if-env-changed=AOZORA_ARCHIVE_DIR");
    let target = |name: &str| env::var(format!("CARGO_CFG_TARGET_{name}")).unwrap_or_default();
    if (target("ARCH").as_str(), target("OS").as_str()) != ("x86_64", "linux") {
        println!("cargo::error=the proved archive is for x86-64 Linux only");
        return;
    }
    let dir = env::var_os("AOZORA_ARCHIVE_DIR").map_or_else(
        || {
            PathBuf::from(env::var_os("CARGO_MANIFEST_DIR").unwrap_or_default())
                .join("../../crates/exports/out")
        },
        PathBuf::from,
    );
    let archive = dir.join("libexports.a");
    println!("cargo::rerun-if-changed={}", archive.display());
    if !archive.is_file() {
        println!(
            "cargo::error=the proved archive {} is not there: run `rt lib` in the repository's folder crates/exports, \
             or set AOZORA_ARCHIVE_DIR to the folder that has libexports.a",
            archive.display()
        );
        return;
    }
    println!("cargo::rustc-link-search=native={}", dir.display());
    println!("cargo::rustc-link-lib=static=exports");
}
