//! Links the proved libraries that the features ask for: `ours` the host library, `calls` the lists of calls.

use std::env;
use std::path::{Path, PathBuf};

fn main() {
    println!("cargo::rerun-if-env-changed=GELVORIN_STATICLIB");
    let crates = PathBuf::from(env!("CARGO_MANIFEST_DIR")).join("../crates");
    let folder = env::var_os("GELVORIN_STATICLIB").map(PathBuf::from);
    for (feature, name) in [("CARGO_FEATURE_OURS", "host"), ("CARGO_FEATURE_CALLS", "lists")] {
        if env::var_os(feature).is_some() {
            let beside = || crates.join(name).join("out");
            link(&folder.clone().unwrap_or_else(beside), name);
        }
    }
}

fn link(folder: &Path, name: &str) {
    let library = folder.join(format!("lib{name}.a"));
    assert!(library.exists(), "no {}: run `rt lib` in crates/{name} first", library.display());
    println!("cargo::rerun-if-changed={}", library.display());
    println!("cargo::rustc-link-search=native={}", folder.display());
    println!("cargo::rustc-link-lib=static={name}");
}
