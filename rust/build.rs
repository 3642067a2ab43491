//! Links the static library that 'make library' writes: RUBZOLENA_LIB names its folder, else target/staticlib of the
//! repository.
use std::{env, path::PathBuf};

fn main() {
    let here = PathBuf::from(env::var("CARGO_MANIFEST_DIR").unwrap());
    let folder = env::var("RUBZOLENA_LIB").map(PathBuf::from).unwrap_or_else(|_| here.join("../target/staticlib"));
    println!("cargo:rustc-link-search=native={}", folder.display());
    println!("cargo:rustc-link-lib=static=rubzolena");
    println!("cargo:rerun-if-env-changed=RUBZOLENA_LIB");
    println!("cargo:rerun-if-changed={}", folder.join("librubzolena.a").display());
}
