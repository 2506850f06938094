//! Finds the archive librelay.a and links it.
//!
//! The environment variable BRATTHELM_LIB names the folder that holds it. Without it the folder is target/staticlib of this repository, where
//! `./archive` leaves it.
use std::{env, path::PathBuf};

fn main() {
    println!("cargo:rerun-if-env-changed=BRATTHELM_LIB");
    let folder = match env::var_os("BRATTHELM_LIB") {
        Some(folder) => PathBuf::from(folder),
        None => PathBuf::from(env::var_os("CARGO_MANIFEST_DIR").expect("cargo sets it")).join("../target/staticlib"),
    };
    // Documentation and checks link nothing, so that a missing archive is told and not an error: the linker misses it by name.
    let archive = folder.join("librelay.a");
    println!("cargo:rerun-if-changed={}", archive.display());
    if !archive.is_file() {
        println!("cargo:warning=librelay.a is not in {}: say `./archive`, or name its folder in BRATTHELM_LIB", folder.display());
    }
    if env::var("CARGO_CFG_TARGET_ARCH").as_deref() != Ok("x86_64") || env::var("CARGO_CFG_TARGET_OS").as_deref() != Ok("linux") {
        println!("cargo:warning=librelay.a is x86-64 code for Linux: build with --target x86_64-unknown-linux-gnu");
    }
    println!("cargo:rustc-link-search=native={}", folder.display());
    println!("cargo:rustc-link-lib=static=relay");
}
