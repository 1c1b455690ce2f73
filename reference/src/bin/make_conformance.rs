//! Writes the conformance sheets, their listings, pairs of sheets to be merged with what comes of each,
//! the index and figures on the way, and the vectors of the permitted error, of the laboratory's density,
//! of the tape allowance, of the stick against the tape, of trains that are handed in, of a probe, of B
//! and of buffers for a merge: `make_conformance FOLDER`.

use std::fs;
use std::path::Path;
use std::process::ExitCode;

use reference::conformance::merges::{self, Pair};
use reference::conformance::vectors::{
    self, expansion, laboratory, merge, permitted, probe, probe_car, probe_error, probe_train,
    stick, tape, train, Written,
};
use reference::{conformance, listing};

fn main() -> ExitCode {
    let arguments: Vec<String> = std::env::args().skip(1).collect();
    let [folder] = arguments.as_slice() else {
        eprintln!("usage: make_conformance FOLDER");
        return ExitCode::from(2);
    };
    match write_cases(Path::new(folder)) {
        Ok(()) => ExitCode::SUCCESS,
        Err(error) => {
            eprintln!("{folder}: {error}");
            ExitCode::FAILURE
        }
    }
}

fn write_cases(folder: &Path) -> std::io::Result<()> {
    fs::create_dir_all(folder)?;
    let cases = conformance::cases();
    let pairs = merges::pairs();
    fs::write(folder.join("INDEX.md"), conformance::index::of(&cases, &pairs))?;
    fs::write(folder.join("STEPS.md"), conformance::steps::of(&cases))?;
    write_vectors::<permitted::Vector>(folder)?;
    write_vectors::<laboratory::Vector>(folder)?;
    write_vectors::<tape::Vector>(folder)?;
    write_vectors::<stick::Vector>(folder)?;
    write_vectors::<train::Vector>(folder)?;
    write_vectors::<probe::Vector>(folder)?;
    write_vectors::<probe_car::Vector>(folder)?;
    write_vectors::<probe_train::Vector>(folder)?;
    write_vectors::<probe_error::Vector>(folder)?;
    write_vectors::<expansion::Vector>(folder)?;
    write_vectors::<merge::Vector>(folder)?;
    for case in cases {
        let listing = listing::of(&case.sheet);
        fs::write(folder.join(format!("{}.sheet", case.name)), &case.sheet)?;
        fs::write(folder.join(format!("{}.listing", case.name)), listing)?;
    }
    pairs.iter().try_for_each(|pair| write_pair(folder, pair))
}

/// Two sheets to be merged, and the merged one or the refusal and its line.
fn write_pair(folder: &Path, pair: &Pair) -> std::io::Result<()> {
    let write =
        |end: &str, bytes: &[u8]| fs::write(folder.join(format!("{}.{end}", pair.name)), bytes);
    write("first", &pair.first)?;
    write("second", &pair.second)?;
    match pair.work_out() {
        Ok(merged) => write("merged", &merged),
        Err((number, line)) => write("refused", format!("{number} {line}\n").as_bytes()),
    }
}

fn write_vectors<V: Written>(folder: &Path) -> std::io::Result<()> {
    fs::write(folder.join(V::FILE), vectors::file::<V>())
}
