//! Links the archive that `make lib` makes.

use std::path::Path;

fn main() {
    let here = std::env::var("CARGO_MANIFEST_DIR").expect("cargo names the folder");
    let root = Path::new(&here).join("../lib");
    let archive = root.join("liblmr5.a");
    if !archive.exists() {
        eprintln!("lib/liblmr5.a is missing: run make lib");
        std::process::exit(1);
    }
    println!("cargo::rustc-link-search=native={}", root.display());
    println!("cargo::rustc-link-lib=static=lmr5");
    println!("cargo::rerun-if-changed={}", archive.display());
}
