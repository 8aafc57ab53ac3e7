//! Gives `compare` the library under test: HEAD_LIBRARY, or the Rattle library.

use std::path::{Path, PathBuf};

fn main() {
    println!("cargo:rerun-if-env-changed=HEAD_LIBRARY");
    let here = std::env::var("CARGO_MANIFEST_DIR").unwrap();
    let default = || Path::new(&here).join("../../crates/head/out/libhead.a");
    let library = std::env::var("HEAD_LIBRARY").map_or_else(|_| default(), PathBuf::from);
    println!("cargo:rerun-if-changed={}", library.display());
    if let Ok(library) = library.canonicalize() {
        if library.extension().is_some_and(|e| e == "so") {
            // By name, so that another can be put in its place (LD_LIBRARY_PATH).
            println!("cargo:rustc-link-arg-bin=compare=-L{}", library.parent().unwrap().display());
            println!("cargo:rustc-link-arg-bin=compare=-l:{}", library.file_name().unwrap().to_str().unwrap());
        } else {
            println!("cargo:rustc-link-arg-bin=compare={}", library.display());
        }
    }
}
