//! The pairs of `conformance/`: the files with two sheets, and with what must come of them.

use std::fs;
use std::path::{Path, PathBuf};

use reference::conformance::merges;

use crate::merged;

/// What a pair's file says must come: the merged sheet, or a refusal's number and line.
fn expected(pair: &Path) -> Result<Vec<u8>, (u32, u32)> {
    if let Ok(sheet) = fs::read(pair.with_extension("merged")) {
        return Ok(sheet);
    }
    let refused = fs::read_to_string(pair.with_extension("refused")).expect("a refusal");
    let (number, line) = refused.trim_end().split_once(' ').expect("two numbers");
    Err([number, line].map(|word| word.parse().expect("a number")).into())
}

/// The files of all first sheets.
fn firsts() -> Vec<PathBuf> {
    let folder = Path::new(env!("CARGO_MANIFEST_DIR")).join("../conformance");
    let files = fs::read_dir(folder).expect("the conformance folder");
    let paths = files.map(|file| file.expect("a file").path());
    paths.filter(|path| path.extension().is_some_and(|extension| extension == "first")).collect()
}

#[test]
fn every_pair_of_the_folder() {
    let firsts = firsts();
    assert_eq!(firsts.len(), merges::pairs().len());
    for path in firsts {
        let first = fs::read(&path).expect("a first sheet");
        let second = fs::read(path.with_extension("second")).expect("a second sheet");
        assert!(merged(&first, &second) == expected(&path), "{}", path.display());
    }
}
