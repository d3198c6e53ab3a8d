//! Links the hub library, which needs no other.

use std::env;
use std::path::{Path, PathBuf};

fn folder(variable: &str, default: &str) -> PathBuf {
    println!("cargo:rerun-if-env-changed={variable}");
    let here = PathBuf::from(env::var_os("CARGO_MANIFEST_DIR").expect("cargo sets CARGO_MANIFEST_DIR"));
    // An absolute path replaces `here`, a relative one is taken from this folder.
    here.join(env::var_os(variable).filter(|folder| !folder.is_empty()).unwrap_or_else(|| default.into()))
}

fn link(folder: &Path, name: &str) {
    println!("cargo:rustc-link-search=native={}", folder.display());
    println!("cargo:rustc-link-lib=static={name}");
    println!("cargo:rerun-if-changed={}", folder.join(format!("lib{name}.a")).display());
}

fn main() {
    println!("cargo:rerun-if-changed=build.rs");
    link(&folder("MELLFRYD_LIB", "../crates/hub_c/out"), "hub_c");
}
