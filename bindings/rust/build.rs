//! Links libcorrumai.a: from the folder that CORRUMAI_LIB_DIR names, or from this repository's build.

use std::env;
use std::path::{Path, PathBuf};

fn main() {
    println!("cargo:rerun-if-env-changed=CORRUMAI_LIB_DIR");
    let folder = match env::var_os("CORRUMAI_LIB_DIR") {
        Some(given) => PathBuf::from(given),
        None => {
            let here = env::var_os("CARGO_MANIFEST_DIR").expect("cargo names the folder");
            Path::new(&here).join("../../crates/corrumai/out")
        }
    };
    println!("cargo:rerun-if-changed={}", folder.join("libcorrumai.a").display());
    println!("cargo:rustc-link-search=native={}", folder.display());
    println!("cargo:rustc-link-lib=static=corrumai");
}
