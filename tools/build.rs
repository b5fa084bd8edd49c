//! Links the product's static library, libcorrumai.a, into the program alone. It stands in the folder that CORRUMAI_LIB_DIR
//! names, or in ../crates/corrumai/out. Without the library the crate still builds.

use std::env;
use std::path::{Path, PathBuf};

fn main() {
    println!("cargo:rerun-if-env-changed=CORRUMAI_LIB_DIR");
    let folder = match env::var_os("CORRUMAI_LIB_DIR") {
        Some(given) => PathBuf::from(given),
        None => {
            let here = env::var_os("CARGO_MANIFEST_DIR").expect("cargo names the folder");
            Path::new(&here).join("../crates/corrumai/out")
        }
    };
    let library = folder.join("libcorrumai.a");
    println!("cargo:rerun-if-changed={}", library.display());
    if library.is_file() {
        println!("cargo:rustc-link-arg-bin=corrumai={}", library.display());
    }
}
