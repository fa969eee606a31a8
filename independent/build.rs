//! Finds the proved library when the feature `proved` asks for it.

use std::env;

fn main() {
    println!("cargo:rerun-if-env-changed=EXPORT_LIB_DIR");
    if env::var_os("CARGO_FEATURE_PROVED").is_none() {
        return;
    }
    let folder = env::var("EXPORT_LIB_DIR")
        .expect("the feature `proved` needs EXPORT_LIB_DIR, the folder that holds libexport.a");
    println!("cargo:rerun-if-changed={folder}/libexport.a");
    println!("cargo:rustc-link-search=native={folder}");
    println!("cargo:rustc-link-lib=static=export");
}
