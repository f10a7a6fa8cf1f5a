//! Links the proved library, which `make` has built before.

use std::path::Path;

fn main() {
    let here = std::env::var("CARGO_MANIFEST_DIR").expect("cargo names the folder of the crate");
    let folder = Path::new(&here).join("../../target/staticlib");
    println!("cargo:rustc-link-search=native={}", folder.display());
    println!("cargo:rustc-link-lib=static=host");
    println!("cargo:rerun-if-changed={}", folder.join("libhost.a").display());
}
