//! Compiles `c/structs.c`, which takes the test through the structs of the header. CC names the compiler, if it is not `cc`. A step in its
//! C that is undefined, such as null handed to the library, ends the run.
use std::{env, path::PathBuf, process::Command};

fn main() {
    let folder = |variable| PathBuf::from(env::var_os(variable).unwrap());
    let (here, object) = (folder("CARGO_MANIFEST_DIR"), folder("OUT_DIR").join("structs.o"));
    let (source, include) = (here.join("c/structs.c"), here.join("../../include"));
    let compiler = env::var_os("CC").unwrap_or_else(|| "cc".into());
    let status = Command::new(&compiler)
        .args(["-std=c99", "-O2", "-fPIC", "-fsanitize=undefined", "-fsanitize-undefined-trap-on-error"])
        .args(["-Wall", "-Wextra", "-pedantic", "-Werror", "-c", "-I"])
        .args([&include, &source])
        .arg("-o")
        .arg(&object)
        .status();
    assert!(status.is_ok_and(|status| status.success()), "{compiler:?} cannot compile {source:?}");
    println!("cargo:rerun-if-env-changed=CC");
    println!("cargo:rerun-if-changed={}", source.display());
    println!("cargo:rerun-if-changed={}", include.join("lemontiller.h").display());
    println!("cargo:rustc-link-arg={}", object.display());
}
