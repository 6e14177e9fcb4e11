//! Links the proved library from PWS_LIB_DIR, and the hand-written engine from PEER_LIB_DIR.

use std::env;
use std::path::PathBuf;

fn main() {
    println!("cargo:rerun-if-changed=build.rs");
    for (variable, library) in [("PWS_LIB_DIR", "pws"), ("PEER_LIB_DIR", "peer")] {
        println!("cargo:rerun-if-env-changed={variable}");
        let folder = env::var_os(variable).unwrap_or_else(|| panic!("{variable} is not set"));
        let folder = PathBuf::from(folder);
        println!("cargo:rerun-if-changed={}", folder.join(format!("lib{library}.a")).display());
        println!("cargo:rustc-link-search=native={}", folder.display());
        println!("cargo:rustc-link-lib=static={library}");
    }
}
