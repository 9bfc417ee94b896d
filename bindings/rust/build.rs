//! Links libsheafwinch.a from the folder that SHEAFWINCH_LIB names.

use std::path::Path;
use std::{env, process};

fn stop(why: &str) -> ! {
    eprintln!("{why}");
    process::exit(1)
}

fn main() {
    println!("cargo:rerun-if-env-changed=SHEAFWINCH_LIB");
    println!("cargo:rerun-if-changed=build.rs");
    let target = (env::var("CARGO_CFG_TARGET_ARCH"), env::var("CARGO_CFG_TARGET_OS"));
    if target != (Ok("x86_64".into()), Ok("linux".into())) {
        stop("libsheafwinch.a is for x86-64 Linux, and this build is for another target");
    }
    let Ok(folder) = env::var("SHEAFWINCH_LIB") else {
        stop("SHEAFWINCH_LIB is not set: run tools/capi/build OUT and set it to the full path of OUT");
    };
    let Ok(folder) = Path::new(&folder).canonicalize() else {
        stop(&format!("SHEAFWINCH_LIB names no folder: {folder}"));
    };
    let archive = folder.join("libsheafwinch.a");
    if !archive.is_file() {
        stop(&format!("there is no libsheafwinch.a in the folder that SHEAFWINCH_LIB names: {}", folder.display()));
    }
    println!("cargo:rerun-if-changed={}", archive.display());
    println!("cargo:rustc-link-search=native={}", folder.display());
    println!("cargo:rustc-link-lib=static=sheafwinch");
}
