//! Links liberythmoda.a, found in the folder that ERYTHMODA_LIB_DIR names.

use std::env;

fn main() {
    println!("cargo:rerun-if-env-changed=ERYTHMODA_LIB_DIR");
    if let Ok(dir) = env::var("ERYTHMODA_LIB_DIR") {
        println!("cargo:rerun-if-changed={dir}/liberythmoda.a");
        println!("cargo:rustc-link-search=native={dir}");
    }
    println!("cargo:rustc-link-lib=static=erythmoda");
}
