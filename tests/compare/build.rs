//! Links libgongaurora.a from the folder that GONGAURORA_LIB names; dist/ by default.

use std::env;
use std::path::PathBuf;

fn main() {
    println!("cargo:rerun-if-env-changed=GONGAURORA_LIB");
    let here = PathBuf::from(env::var("CARGO_MANIFEST_DIR").unwrap());
    let folder = env::var("GONGAURORA_LIB").map_or(here.join("../../dist"), PathBuf::from);
    let folder = folder.canonicalize().unwrap_or(folder);
    println!("cargo:rerun-if-changed={}", folder.join("libgongaurora.a").display());
    println!("cargo:rustc-link-search=native={}", folder.display());
    println!("cargo:rustc-link-lib=static:-bundle=gongaurora");
}
