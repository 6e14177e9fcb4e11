//! Finds the first implementation's C library, so that the differential tests can be linked to it:
//! `cfg(pws)` says that the folder in PWS_LIB_DIR has a libpws.a.

use std::env;
use std::fs;

fn main() {
    println!("cargo:rustc-check-cfg=cfg(pws)");
    println!("cargo:rerun-if-changed=build.rs");
    println!("cargo:rerun-if-env-changed=PWS_LIB_DIR");
    let Some(folder) = env::var_os("PWS_LIB_DIR") else { return };
    let Ok(folder) = fs::canonicalize(folder) else { return };
    let library = folder.join("libpws.a");
    println!("cargo:rerun-if-changed={}", library.display());
    if library.is_file() {
        println!("cargo:rustc-cfg=pws");
        println!("cargo:rustc-link-search=native={}", folder.display());
    }
}
