//! Links the static library that `kit/build library` writes. LEMONTILLER_LIB names its folder, if it is not the checkout's own.
use std::{env, path::PathBuf};

/// The crate that the library is built from, and so its name.
const CRATE: &str = "lemontiller";

fn main() {
    let folder = env::var_os("LEMONTILLER_LIB")
        .map(PathBuf::from)
        .unwrap_or_else(|| PathBuf::from(env::var_os("CARGO_MANIFEST_DIR").unwrap()).join("../../target/staticlib"));
    println!("cargo:rerun-if-env-changed=LEMONTILLER_LIB");
    println!("cargo:rerun-if-changed={}", folder.join(format!("lib{CRATE}.a")).display());
    println!("cargo:rustc-link-search=native={}", folder.display());
    println!("cargo:rustc-link-lib=static={CRATE}");
}
