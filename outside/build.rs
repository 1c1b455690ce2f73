//! Links the proved code, which `bin/library` writes anew where a crate is newer.

use std::path::Path;
use std::process::Command;

fn main() {
    let package = std::env::var("CARGO_MANIFEST_DIR").expect("cargo names the package's folder");
    let top = Path::new(&package).join("..");
    let built = Command::new(top.join("bin/library")).status().expect("bin/library can be run");
    assert!(built.success(), "bin/library failed: its output says why");

    let folder = top.join("target/staticlib");
    println!("cargo:rustc-link-search=native={}", folder.display());
    println!("cargo:rustc-link-lib=static=rack");
    for path in ["target/staticlib/librack.a", "bin/library", "crates", "crates.txt", "TOOLCHAIN"] {
        println!("cargo:rerun-if-changed={}", top.join(path).display());
    }
}
