//! Links the proved library to the program that compares with it.

use std::env;

fn main() {
    println!("cargo:rerun-if-changed=build.rs");
    println!("cargo:rerun-if-env-changed=POLYGON_LIB");
    if env::var_os("CARGO_FEATURE_PROVED").is_none() {
        return;
    }
    let archive = env::var("POLYGON_LIB").expect("POLYGON_LIB is the path of libfirmware.a");
    println!("cargo:rerun-if-changed={archive}");
    println!("cargo:rustc-link-arg-bin=compare={archive}");
}
