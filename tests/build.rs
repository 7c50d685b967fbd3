//! Links ../target/staticlib/libplanner.a, which `examples/library` makes.

use std::env;
use std::path::Path;

fn main() {
    let manifest = env::var("CARGO_MANIFEST_DIR").expect("cargo sets the manifest's folder");
    let folder = Path::new(&manifest).join("../target/staticlib");
    let archive = folder.join("libplanner.a");
    assert!(archive.is_file(), "no {}: run examples/library", archive.display());
    println!("cargo:rustc-link-search=native={}", folder.display());
    println!("cargo:rustc-link-lib=static=planner");
    println!("cargo:rerun-if-changed={}", archive.display());
    println!("cargo:rerun-if-changed=build.rs");
}
