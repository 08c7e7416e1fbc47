//! Finds the static library that tools/staticlib writes, and has it linked.

use std::env;
use std::path::PathBuf;

/// Names another folder that holds libfogzurt.a.
const FOLDER: &str = "FOGZURT_STATICLIB_DIR";

fn main() {
    println!("cargo::rerun-if-env-changed={FOLDER}");
    let folder = env::var_os(FOLDER).map_or_else(
        || [env!("CARGO_MANIFEST_DIR"), "..", "..", "target", "staticlib"].iter().collect(),
        PathBuf::from,
    );
    let archive = folder.join("libfogzurt.a");
    println!("cargo::rerun-if-changed={}", archive.display());
    if archive.is_file() {
        println!("cargo::rustc-link-search=native={}", folder.display());
        println!("cargo::rustc-link-lib=static=fogzurt");
    } else {
        println!("cargo::error=no static library at {}", archive.display());
        println!("cargo::error=at the top of the repository, run: tools/staticlib");
        println!("cargo::error=or set {FOLDER} to the folder that holds libfogzurt.a");
    }
}
