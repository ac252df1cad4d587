//! Links liberythmoda.a when the feature `ours` asks for it.

use std::env;

fn main() {
    println!("cargo:rerun-if-changed=build.rs");
    println!("cargo:rerun-if-env-changed=ERYTHMODA_LIB_DIR");
    if env::var_os("CARGO_FEATURE_OURS").is_none() {
        return;
    }
    if let Ok(dir) = env::var("ERYTHMODA_LIB_DIR") {
        println!("cargo:rerun-if-changed={dir}/liberythmoda.a");
        println!("cargo:rustc-link-search=native={dir}");
    }
    println!("cargo:rustc-link-lib=static=erythmoda");
}
