//! Tells the linker where the archives with the line's exported functions lie.

use std::env;
use std::path::{Path, PathBuf};

const ARCHIVES: [&str; 2] = ["detail", "entries"];

fn main() {
    println!("cargo:rerun-if-env-changed=LINE_LIB");
    let directory = env::var_os("LINE_LIB").map_or_else(beside_the_package, PathBuf::from);
    println!("cargo:rustc-link-search=native={}", directory.display());
    for name in ARCHIVES {
        let archive = directory.join(format!("lib{name}.a"));
        println!("cargo:rerun-if-changed={}", archive.display());
        assert!(
            archive.is_file(),
            "\n\nThere is no {}.\nMake it with `tools/build`, run in the repository's root.\n",
            archive.display()
        );
        println!("cargo:rustc-link-lib=static={name}");
    }
}

fn beside_the_package() -> PathBuf {
    let package = env::var_os("CARGO_MANIFEST_DIR").expect("cargo names the package's directory");
    let repository = Path::new(&package).parent();
    repository
        .expect("the package stands in the repository")
        .join("target/staticlib")
}
