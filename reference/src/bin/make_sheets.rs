//! Writes test sheets and their listings: `make_sheets FIRST_SEED COUNT FOLDER`.

use std::fs;
use std::path::Path;
use std::process::ExitCode;

use reference::{listing, sheets};

fn main() -> ExitCode {
    let arguments: Vec<String> = std::env::args().skip(1).collect();
    let (Some(seed), Some(count), Some(folder), 3) = (
        arguments.first().and_then(|text| text.parse::<u64>().ok()),
        arguments.get(1).and_then(|text| text.parse::<u64>().ok()),
        arguments.get(2).map(Path::new),
        arguments.len(),
    ) else {
        eprintln!("usage: make_sheets FIRST_SEED COUNT FOLDER");
        return ExitCode::from(2);
    };
    match write_sheets(seed, count, folder) {
        Ok(()) => ExitCode::SUCCESS,
        Err(error) => {
            eprintln!("{}: {error}", folder.display());
            ExitCode::FAILURE
        }
    }
}

fn write_sheets(first: u64, count: u64, folder: &Path) -> std::io::Result<()> {
    fs::create_dir_all(folder)?;
    for seed in (0..count).map(|place| first.wrapping_add(place)) {
        let sheet = sheets::sheet(seed);
        fs::write(folder.join(format!("{seed}.sheet")), &sheet)?;
        fs::write(folder.join(format!("{seed}.listing")), listing::of(&sheet))?;
    }
    Ok(())
}
