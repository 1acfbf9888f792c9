//! Links the program, and only it, to lib/liblmr5.a.

use std::path::Path;

fn main() {
    println!("cargo::rustc-check-cfg=cfg(no_library)");
    let root = std::env::var("CARGO_MANIFEST_DIR").expect("cargo names the folder");
    let library = Path::new(&root).join("../lib/liblmr5.a");
    println!("cargo::rerun-if-changed={}", library.display());
    if library.exists() {
        println!("cargo::rustc-link-arg-bins={}", library.display());
    } else {
        println!("cargo::rustc-cfg=no_library");
        // Nothing has this name, so cargo looks again the next time.
        println!("cargo::rerun-if-changed=no-library");
    }
}
