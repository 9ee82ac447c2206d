//! Links libtugzeck.a. It is looked for in the folder that TUGZECK_LIB names, else where `tools/build tugzeck` writes it.

use std::env;
use std::path::PathBuf;

fn main() {
    println!("cargo:rerun-if-env-changed=TUGZECK_LIB");
    let folder = env::var_os("TUGZECK_LIB")
        .map(PathBuf::from)
        .unwrap_or_else(|| PathBuf::from(env::var_os("CARGO_MANIFEST_DIR").expect("cargo sets it")).join("../../target/staticlib"));
    let library = folder.join("libtugzeck.a");
    assert!(library.is_file(), "{} is not there: run `tools/build tugzeck`, or set TUGZECK_LIB to its folder", library.display());
    println!("cargo:rerun-if-changed={}", library.display());
    println!("cargo:rustc-link-search=native={}", folder.display());
    println!("cargo:rustc-link-lib=static=tugzeck");
}
