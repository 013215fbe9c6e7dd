//! Finds the archive libdamsonyet.a: in the folder that DAMSONYET_LIB_DIR names, or in crates/damsonyet/out of this
//! repository, where `rt lib` leaves it.
use std::{env, path::PathBuf};

fn main() {
    println!("cargo::rerun-if-env-changed=DAMSONYET_LIB_DIR");
    let folder = env::var_os("DAMSONYET_LIB_DIR")
        .map_or_else(|| PathBuf::from(env::var_os("CARGO_MANIFEST_DIR").unwrap()).join("../crates/damsonyet/out"), PathBuf::from);
    let archive = folder.join("libdamsonyet.a");
    println!("cargo::rerun-if-changed={}", archive.display());
    if !archive.is_file() {
        println!("cargo::error=no {}: 'tools/fresh archive' makes it, or DAMSONYET_LIB_DIR names its folder", archive.display());
    }
    println!("cargo::rustc-link-search=native={}", folder.display());
    println!("cargo::rustc-link-lib=static=damsonyet");
}
