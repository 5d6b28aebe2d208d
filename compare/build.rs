//! Links the verified libraries, which stand in the repository's target folder
//! unless EXPORTS_DIR names another.

use std::env;
use std::path::PathBuf;

fn main() {
    println!("cargo:rerun-if-env-changed=EXPORTS_DIR");
    let folder = env::var_os("EXPORTS_DIR").map_or_else(default_folder, PathBuf::from);
    println!("cargo:rustc-link-search=native={}", folder.display());
    for library in ["exports", "cabinet"] {
        let archive = folder.join(format!("lib{library}.a"));
        assert!(
            archive.exists(),
            "{} is missing: build it with `programs/build {library}`, or set EXPORTS_DIR",
            archive.display()
        );
        println!("cargo:rerun-if-changed={}", archive.display());
        println!("cargo:rustc-link-lib=static={library}");
    }
}

fn default_folder() -> PathBuf {
    let package = env::var_os("CARGO_MANIFEST_DIR").expect("cargo sets the package's folder");
    PathBuf::from(package).join("../target/staticlib")
}
