//! Links the static library that `./build` writes.

use std::path::PathBuf;

fn main() {
    let package = std::env::var_os("CARGO_MANIFEST_DIR").expect("cargo says where the package is");
    let folder = PathBuf::from(package).join("../target/lib");
    let library = folder.join("libmrkvandel.a");
    println!("cargo:rerun-if-changed={}", library.display());
    assert!(library.is_file(), "target/lib/libmrkvandel.a is missing: run ./build first");
    println!("cargo:rustc-link-search=native={}", folder.display());
    println!("cargo:rustc-link-lib=static=mrkvandel");
}
