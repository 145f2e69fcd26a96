//! Links the proved library's doors, a static library, which `rt lib` in the
//! crate's folder leaves in its `out/`, or says how to make it.

use std::path::Path;
use std::{env, process};

fn main() {
    let here = env::var("CARGO_MANIFEST_DIR").expect("cargo names the package's folder");
    let folder = Path::new(&here).join("../../crates/doors/out");
    let library = folder.join("libdoors.a");
    println!("cargo:rerun-if-changed={}", library.display());
    println!("cargo:rerun-if-changed=build.rs");
    if !library.is_file() {
        eprintln!("crates/doors/out/libdoors.a is not there: first run 'rt lib' in crates/doors");
        process::exit(1);
    }
    println!("cargo:rustc-link-search=native={}", folder.display());
    println!("cargo:rustc-link-lib=static=doors");
}
