//! Links the proved library, whose folder EXPORT_LIB_DIR names.

use std::env;

fn main() {
    println!("cargo:rerun-if-env-changed=EXPORT_LIB_DIR");
    let folder = env::var("EXPORT_LIB_DIR")
        .expect("EXPORT_LIB_DIR must name the folder that holds libexport.a");
    println!("cargo:rerun-if-changed={folder}/libexport.a");
    println!("cargo:rustc-link-search=native={folder}");
    println!("cargo:rustc-link-lib=static=export");
}
