//! Links liboer_c.a for the program `compare`: from OER_LIB_DIR, or from target/staticlib of the repository.

use std::env;
use std::path::PathBuf;

fn main() {
    println!("cargo:rerun-if-env-changed=OER_LIB_DIR");
    if env::var_os("CARGO_FEATURE_COMPARE").is_none() {
        return;
    }
    let here = PathBuf::from(env::var_os("CARGO_MANIFEST_DIR").expect("cargo names the package's directory"));
    let directory = env::var_os("OER_LIB_DIR").map_or(here.join("../target/staticlib"), PathBuf::from);
    println!("cargo:rerun-if-changed={}", directory.join("liboer_c.a").display());
    println!("cargo:rustc-link-search=native={}", directory.display());
    println!("cargo:rustc-link-lib=static=oer_c");
}
