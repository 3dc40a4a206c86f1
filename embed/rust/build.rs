//! Links the library that `embed/Makefile` builds. `TERRA_LIB` names another folder with `libterra.a`.
use std::{env, path::PathBuf};

fn main() {
    let here = PathBuf::from(env::var("CARGO_MANIFEST_DIR").unwrap());
    let folder = env::var("TERRA_LIB").map_or_else(|_| here.join("../build"), PathBuf::from);
    println!("cargo:rustc-link-search=native={}", folder.display());
    println!("cargo:rustc-link-lib=static=terra");
    println!("cargo:rerun-if-env-changed=TERRA_LIB");
    println!("cargo:rerun-if-changed={}", folder.join("libterra.a").display());
}
