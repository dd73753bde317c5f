//! Says where the static library of the proved code stands: `libexports.a` in the folder that `NAPSILO_LIB_DIR` names, else in
//! `crates/exports/out` of the repository, where `rt lib` in crates/exports writes it.
//!
//! Without the library this crate can be checked and documented. What links it cannot be built, and a warning says why.

use std::env;
use std::path::PathBuf;

fn main() {
    println!("cargo::rerun-if-changed=build.rs");
    println!("cargo::rerun-if-env-changed=NAPSILO_LIB_DIR");
    let folder = match env::var_os("NAPSILO_LIB_DIR") {
        Some(folder) => PathBuf::from(folder),
        None => {
            let own = env::var_os("CARGO_MANIFEST_DIR").expect("cargo names the folder");
            PathBuf::from(own).join("../../crates/exports/out")
        }
    };
    let file = folder.join("libexports.a");
    println!("cargo::rerun-if-changed={}", file.display());
    if !file.is_file() {
        println!(
            "cargo::warning=no libexports.a in {}: `cargo check` and `cargo doc` work, but nothing can be linked. Write it with \
             `rt lib` in crates/exports, or name its folder in NAPSILO_LIB_DIR",
            folder.display()
        );
    }
    println!("cargo::rustc-link-search=native={}", folder.display());
    println!("cargo::rustc-link-lib=static=exports");
}
