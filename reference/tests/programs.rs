//! The four programs, run as programs.

use std::fs;
use std::io::Write;
use std::path::{Path, PathBuf};
use std::process::{Command, Stdio};

use reference::conformance::vectors::{
    self, expansion, laboratory, merge, permitted, probe, probe_car, probe_error, probe_train,
    stick, tape, train,
};
use reference::conformance::{self, merges};
use reference::{listing, sheets};

fn rack(sheet: &[u8]) -> Vec<u8> {
    let mut child = Command::new(env!("CARGO_BIN_EXE_rack_reference"))
        .stdin(Stdio::piped())
        .stdout(Stdio::piped())
        .spawn()
        .unwrap();
    // The program stops reading a sheet that is too long, so writing may fail.
    let _ = child.stdin.take().unwrap().write_all(sheet);
    let output = child.wait_with_output().unwrap();
    assert!(output.status.success());
    output.stdout
}

fn empty_folder(name: &str) -> PathBuf {
    let folder = Path::new(env!("CARGO_TARGET_TMPDIR")).join(name);
    if folder.exists() {
        fs::remove_dir_all(&folder).unwrap();
    }
    folder
}

#[test]
fn the_rack_program_answers_every_conformance_sheet() {
    for case in conformance::cases() {
        assert_eq!(rack(&case.sheet), case.listing, "{}", case.name);
    }
}

#[test]
fn the_rack_program_refuses_endless_input() {
    assert_eq!(rack(&vec![b'T'; 10_000_000]), b"Z        0        2\n");
    assert_eq!(rack(&vec![b'T'; 48_112]), b"Z        0        2\n");
    assert_eq!(rack(&vec![b'T'; 48_111]), b"Z        1        3\n");
}

#[test]
fn make_sheets_writes_sheets_and_listings() {
    let folder = empty_folder("sheets");
    let made = Command::new(env!("CARGO_BIN_EXE_make_sheets"))
        .args(["100", "20"])
        .arg(&folder)
        .status()
        .unwrap();
    assert!(made.success());
    assert_eq!(fs::read_dir(&folder).unwrap().count(), 40);
    for seed in 100..120 {
        let sheet = fs::read(folder.join(format!("{seed}.sheet"))).unwrap();
        let listing = fs::read(folder.join(format!("{seed}.listing"))).unwrap();
        assert_eq!(sheet, sheets::sheet(seed));
        assert_eq!(listing, listing::of(&sheet));
    }
}

#[test]
fn make_conformance_writes_sheets_and_listings() {
    let folder = empty_folder("conformance");
    let made = Command::new(env!("CARGO_BIN_EXE_make_conformance")).arg(&folder).status().unwrap();
    assert!(made.success());
    let cases = conformance::cases();
    let pairs = merges::pairs();
    // Sheets and listings, pairs with what comes of each, the index, the figures on the way and eleven files
    // of vectors.
    let files = 2 * cases.len() + 3 * pairs.len() + 13;
    assert_eq!(fs::read_dir(&folder).unwrap().count(), files);
    let written = |name: &str| fs::read_to_string(folder.join(name)).unwrap();
    assert_eq!(written("permitted-error.vectors"), vectors::file::<permitted::Vector>());
    assert_eq!(written("laboratory-density.vectors"), vectors::file::<laboratory::Vector>());
    assert_eq!(written("tape-allowance.vectors"), vectors::file::<tape::Vector>());
    assert_eq!(written("stick-against-tape.vectors"), vectors::file::<stick::Vector>());
    assert_eq!(written("train-strike.vectors"), vectors::file::<train::Vector>());
    assert_eq!(written("probe.vectors"), vectors::file::<probe::Vector>());
    assert_eq!(written("probe-car.vectors"), vectors::file::<probe_car::Vector>());
    assert_eq!(written("probe-train.vectors"), vectors::file::<probe_train::Vector>());
    assert_eq!(written("probe-error.vectors"), vectors::file::<probe_error::Vector>());
    assert_eq!(written("expansion.vectors"), vectors::file::<expansion::Vector>());
    assert_eq!(written("merge-buffer.vectors"), vectors::file::<merge::Vector>());
    for case in cases {
        assert_eq!(fs::read(folder.join(format!("{}.sheet", case.name))).unwrap(), case.sheet);
        assert_eq!(fs::read(folder.join(format!("{}.listing", case.name))).unwrap(), case.listing);
    }
    for pair in pairs {
        let file = |end: &str| fs::read(folder.join(format!("{}.{end}", pair.name))).ok();
        assert_eq!(
            (file("first"), file("second")),
            (Some(pair.first.clone()), Some(pair.second.clone()))
        );
        let refused = |(number, line)| format!("{number} {line}\n").into_bytes();
        let outcome = pair.work_out();
        assert_eq!(file("merged").as_ref(), outcome.as_ref().ok(), "{}", pair.name);
        assert_eq!(file("refused"), outcome.err().map(refused), "{}", pair.name);
    }
}

/// Every pair from files: the merged sheet and status 0, or the refusal with its line and status 4.
#[test]
fn the_merge_program_answers_every_pair() {
    let folder = empty_folder("pairs");
    fs::create_dir_all(&folder).unwrap();
    let files = ["first", "second"].map(|name| folder.join(name));
    for pair in merges::pairs() {
        fs::write(&files[0], &pair.first).unwrap();
        fs::write(&files[1], &pair.second).unwrap();
        let merge =
            Command::new(env!("CARGO_BIN_EXE_merge_reference")).args(&files).output().unwrap();
        let told = String::from_utf8(merge.stderr).unwrap();
        let (status, written, right) = match pair.work_out() {
            Ok(merged) => (0, merged, String::new()),
            Err((number, 0)) => (4, Vec::new(), format!("merge_reference: refusal {number}\n")),
            Err((number, line)) => {
                (4, Vec::new(), format!("merge_reference: refusal {number}, line {line}\n"))
            }
        };
        assert_eq!((merge.status.code(), told), (Some(status), right), "{}", pair.name);
        assert_eq!(merge.stdout, written, "{}", pair.name);
    }
}

#[test]
fn programs_explain_their_arguments() {
    let programs = [
        env!("CARGO_BIN_EXE_make_sheets"),
        env!("CARGO_BIN_EXE_make_conformance"),
        env!("CARGO_BIN_EXE_merge_reference"),
    ];
    for program in programs {
        let output = Command::new(program).output().unwrap();
        assert_eq!(output.status.code(), Some(2));
        assert!(output.stderr.starts_with(b"usage: "));
    }
}
