//! Links the proved library, target/staticlib/libtotem.a below the repository.

use std::path::Path;

fn main() {
    let package = std::env::var("CARGO_MANIFEST_DIR").expect("cargo sets CARGO_MANIFEST_DIR");
    let folder = Path::new(&package).join("../../target/staticlib");
    let archive = folder.join("libtotem.a");
    assert!(archive.is_file(), "{} is not there: build it with `host/archive`", archive.display());
    println!("cargo:rustc-link-search=native={}", folder.display());
    println!("cargo:rustc-link-lib=static=totem");
    println!("cargo:rerun-if-changed={}", archive.display());
}
