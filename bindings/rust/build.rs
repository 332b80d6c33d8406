//! Finds the static library and has it linked.

use std::env;
use std::path::{Path, PathBuf};

const ARCHIVE: &str = "libleafnurd.a";

/// The folder of the archive: the one that is named, or that of the repository's own build.
fn folder() -> PathBuf {
    if let Some(named) = env::var_os("LEAFNURD_LIB_DIR") {
        return PathBuf::from(named);
    }
    let here = env::var_os("CARGO_MANIFEST_DIR").expect("cargo names the crate's folder");
    Path::new(&here).join("../../crates/leafnurd/out")
}

fn main() {
    println!("cargo::rerun-if-env-changed=LEAFNURD_LIB_DIR");
    let folder = folder();
    println!("cargo::rerun-if-changed={}", folder.join(ARCHIVE).display());
    // Where only the documentation is made, nothing is linked.
    if env::var_os("DOCS_RS").is_some() {
        return;
    }
    match folder.canonicalize() {
        Ok(folder) if folder.join(ARCHIVE).is_file() => {
            println!("cargo::rustc-link-search=native={}", folder.display());
            println!("cargo::rustc-link-lib=static=leafnurd");
        }
        _ => println!(
            "cargo::error=there is no {}: `rt lib` in crates/leafnurd builds it, or LEAFNURD_LIB_DIR names its folder",
            folder.join(ARCHIVE).display()
        ),
    }
}
