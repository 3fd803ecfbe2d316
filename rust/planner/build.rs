//! Links the proved library that `rt lib` writes in `crates/exports`.
use std::path::Path;

fn main() {
    let folder = Path::new(env!("CARGO_MANIFEST_DIR")).join("../../crates/exports/out");
    let library = folder.join("libexports.a");
    if !library.exists() {
        println!("cargo::error=there is no proved library yet: run `rt lib` in crates/exports first");
        return;
    }
    println!("cargo:rustc-link-search=native={}", folder.display());
    println!("cargo:rustc-link-lib=static=exports");
    println!("cargo:rerun-if-changed={}", library.display());
}
