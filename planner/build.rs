//! Links the monitor's archive, whose entries do all the reckoning.

use std::path::Path;

fn main() {
    let folder = Path::new(env!("CARGO_MANIFEST_DIR")).join("../target/staticlib");
    let archive = folder.join("libmonitor.a");
    assert!(archive.exists(), "there is no {}: tools/build archive proves and builds it", archive.display());
    println!("cargo:rerun-if-changed=build.rs");
    println!("cargo:rerun-if-changed={}", archive.display());
    println!("cargo:rustc-link-search=native={}", folder.display());
    println!("cargo:rustc-link-lib=static=monitor");
}
