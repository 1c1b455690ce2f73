//! Copies the reference's modules into one file in which every point that a program could get
//! wrong asks `hooks` what to do there, and writes the list of these points.

#[path = "edits.rs"]
mod edits;
mod rewrite;
mod tokens;

use std::fmt::Write;
use std::fs;
use std::path::{Path, PathBuf};

fn main() {
    let package = std::env::var("CARGO_MANIFEST_DIR").expect("cargo names the package's folder");
    let folder = Path::new(&package).join("../reference/src");
    println!("cargo:rerun-if-changed={}", folder.display());
    println!("cargo:rerun-if-changed={package}/build");

    let sources: Vec<(String, String)> = modules(&folder);
    let constants = rewrite::constants(&sources);
    let mut points = Vec::new();
    let mut copy = String::new();
    for (name, source) in &sources {
        let module = rewrite::module(name, source, &constants, &mut points);
        writeln!(copy, "pub mod {name} {{\n{module}\n}}").expect("writing to memory");
    }
    let out = PathBuf::from(std::env::var("OUT_DIR").expect("cargo names a folder"));
    fs::write(out.join("turned.rs"), copy).expect("the copy can be written");
    let list: String = points.iter().map(|point| format!("{point},\n")).collect();
    fs::write(out.join("points.rs"), format!("&[\n{list}]")).expect("the list can be written");
}

/// The modules that hold rules, by name.
fn modules(folder: &Path) -> Vec<(String, String)> {
    let entries = fs::read_dir(folder).expect("the reference lies beside this package");
    let mut paths: Vec<PathBuf> = entries.map(|entry| entry.expect("an entry").path()).collect();
    paths.sort();
    let rules = paths.iter().filter(|path| {
        path.extension().is_some_and(|end| end == "rs") && !path.ends_with("lib.rs")
    });
    rules
        .map(|path| {
            let name = path.file_stem().expect("a name").to_string_lossy().into_owned();
            (name, fs::read_to_string(path).expect("a source"))
        })
        .collect()
}
