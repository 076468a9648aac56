//! Links the static library that `rt lib` writes in `crates/test_leaves`.

use std::path::PathBuf;

fn main() {
    let package = std::env::var_os("CARGO_MANIFEST_DIR").expect("cargo says where the package is");
    let folder = PathBuf::from(package).join("../crates/test_leaves/out");
    let library = folder.join("libtest_leaves.a");
    println!("cargo:rerun-if-changed={}", library.display());
    assert!(
        library.is_file(),
        "crates/test_leaves/out/libtest_leaves.a is missing: run `rt lib` in crates/test_leaves first"
    );
    println!("cargo:rustc-link-search=native={}", folder.display());
    println!("cargo:rustc-link-lib=static=test_leaves");
}
