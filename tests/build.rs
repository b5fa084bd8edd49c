//! Links the product's static library, libcorrumai.a.
//! It stands in ../crates/corrumai/out, or in the folder that CORRUMAI_LIB_DIR names.

use std::env;
use std::path::{Path, PathBuf};
use std::process;

fn folder() -> PathBuf {
    match env::var_os("CORRUMAI_LIB_DIR") {
        Some(given) => PathBuf::from(given),
        None => {
            Path::new(&env::var_os("CARGO_MANIFEST_DIR").unwrap()).join("../crates/corrumai/out")
        }
    }
}

fn main() {
    let folder = folder();
    let library = folder.join("libcorrumai.a");
    println!("cargo:rerun-if-env-changed=CORRUMAI_LIB_DIR");
    println!("cargo:rerun-if-changed={}", library.display());
    if !library.is_file() {
        eprintln!(
            "{} is missing: run `rt lib` in crates/corrumai first, or set CORRUMAI_LIB_DIR",
            library.display()
        );
        process::exit(1);
    }
    println!("cargo:rustc-link-search=native={}", folder.display());
    println!("cargo:rustc-link-lib=static=corrumai");
}
