//! Compiles walks.c, checked.c, names.c and writes.c, and links libgongaurora.a from the folder that GONGAURORA_LIB names; dist/
//! by default.

use std::env;
use std::path::{Path, PathBuf};
use std::process::Command;

fn main() {
    println!("cargo:rerun-if-env-changed=GONGAURORA_LIB");
    println!("cargo:rerun-if-changed=src");
    println!("cargo:rerun-if-changed=../include/gongaurora.h");
    let here = PathBuf::from(env::var("CARGO_MANIFEST_DIR").unwrap());
    let made = PathBuf::from(env::var("OUT_DIR").unwrap());
    let objects = ["walks", "checked", "names", "writes"].map(|name| {
        let object = made.join(name).with_extension("o");
        let flags = ["-std=c99", "-Wall", "-Wextra", "-Werror", "-O2", "-fPIC", "-falign-functions=64", "-I"];
        run("cc", &flags, &here.join("../include"), |c| {
            c.arg("-c").arg(here.join("src").join(name).with_extension("c")).arg("-o").arg(&object);
        });
        object
    });
    run("ar", &["rcs"], &made.join("libwalks.a"), |c| {
        c.args(&objects);
    });
    let folder = env::var("GONGAURORA_LIB").map_or(here.join("../dist"), PathBuf::from);
    let folder = folder.canonicalize().unwrap_or(folder);
    println!("cargo:rerun-if-changed={}", folder.join("libgongaurora.a").display());
    println!("cargo:rustc-link-search=native={}", made.display());
    println!("cargo:rustc-link-search=native={}", folder.display());
    println!("cargo:rustc-link-lib=static:-bundle=walks");
    println!("cargo:rustc-link-lib=static:-bundle=gongaurora");
}

/// Runs a program; it has to succeed.
fn run(program: &str, words: &[&str], path: &Path, more: impl FnOnce(&mut Command)) {
    let mut command = Command::new(program);
    command.args(words).arg(path);
    more(&mut command);
    assert!(command.status().is_ok_and(|status| status.success()), "{program} failed");
}
