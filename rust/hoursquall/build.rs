//! Tells the linker where the two static libraries stand, that of the replay and all else: in the
//! folder whose full path is in `HOURSQUALL_LIB`, or else where `scripts/build.sh libraries` writes
//! them. Until something is linked they may be missing.

use std::env;
use std::path::PathBuf;

fn main() {
    println!("cargo:rerun-if-env-changed=HOURSQUALL_LIB");
    println!("cargo:rustc-link-search=native={}", folder().display());
    for library in ["hoursquall", "hoursquall_replay"] {
        let archive = folder().join(format!("lib{library}.a"));
        println!("cargo:rerun-if-changed={}", archive.display());
        println!("cargo:rustc-link-lib=static={library}");
    }
}

fn folder() -> PathBuf {
    if let Some(folder) = env::var_os("HOURSQUALL_LIB") {
        return PathBuf::from(folder);
    }
    let package = env::var_os("CARGO_MANIFEST_DIR").expect("cargo sets it");
    PathBuf::from(package).join("../../target/staticlib")
}
