// Links the proved core: `tools/staticlib speed` at the root writes it.
fn main() {
    let dir = std::path::Path::new(env!("CARGO_MANIFEST_DIR")).join("../target/staticlib");
    println!("cargo:rustc-link-search=native={}", dir.display());
    println!("cargo:rustc-link-lib=static=speed");
    println!("cargo:rerun-if-changed={}", dir.join("libspeed.a").display());
}
