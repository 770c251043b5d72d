//! Links the proved engine's static library, for the feature `engine` alone: from the directory that PASTASPUR_STATICLIB
//! names, or from where `rt staticlib pastaspur` writes it.

use std::path::Path;

fn main() {
    println!("cargo:rerun-if-changed=build.rs");
    println!("cargo:rerun-if-env-changed=PASTASPUR_STATICLIB");
    if std::env::var_os("CARGO_FEATURE_ENGINE").is_none() {
        return;
    }
    let root = std::env::var("CARGO_MANIFEST_DIR").expect("cargo says where the package is");
    let usual = Path::new(&root).join("../target/staticlib");
    let directory = std::env::var_os("PASTASPUR_STATICLIB").map_or(usual, Into::into);
    println!("cargo:rerun-if-changed={}", directory.join("libpastaspur.a").display());
    println!("cargo:rustc-link-search=native={}", directory.display());
    println!("cargo:rustc-link-lib=static=pastaspur");
}
