//! Links the proved core: `tools/staticlib face`, run at the project's root, writes it.
use std::path::Path;

fn main() {
    let dir = Path::new(env!("CARGO_MANIFEST_DIR")).join("../../target/staticlib");
    let archive = dir.join("libface.a");
    println!("cargo:rerun-if-changed={}", archive.display());
    assert!(archive.exists(), "{} is not there: run `tools/staticlib face` at the project's root", archive.display());
    println!("cargo:rustc-link-search=native={}", dir.display());
    println!("cargo:rustc-link-lib=static=face");
}
