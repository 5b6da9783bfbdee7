//! Links the proved library: target/staticlib/librtep.a of the repository's root,
//! or of the folder named by RTEP_STATICLIB.

use std::env;
use std::path::PathBuf;

fn main() {
    let folder = match env::var_os("RTEP_STATICLIB") {
        Some(folder) => PathBuf::from(folder),
        None => PathBuf::from(env::var_os("CARGO_MANIFEST_DIR").expect("cargo sets it"))
            .join("../../target/staticlib"),
    };
    let archive = folder.join("librtep.a");
    if !archive.exists() {
        println!("cargo:warning={} is missing: run tools/staticlib first", archive.display());
    }
    println!("cargo:rustc-link-search=native={}", folder.display());
    println!("cargo:rustc-link-lib=static=rtep");
    println!("cargo:rerun-if-changed={}", archive.display());
    println!("cargo:rerun-if-env-changed=RTEP_STATICLIB");
}
