//! Answers with the proved code and with the reference, and compares both: `differential [COUNT
//! [FIRST_SEED]]` generated sheets and a seventh as many pairs to be merged, to the byte, and some floats of a
//! probe, to the bit; `differential --floats` every float that there is. Ends with status 1 at the first
//! difference.

mod floats;
mod lent;
mod pairs;
mod refused;
mod sheets;

use std::process::ExitCode;

/// Sheets that are compared where the caller names no count.
const SHEETS: u64 = 20_000;

/// Sheets for one pair.
const FOR_A_PAIR: u64 = 7;

fn main() -> ExitCode {
    let arguments: Vec<String> = std::env::args().skip(1).collect();
    if arguments == ["--floats"] {
        return status(floats::compare_all());
    }
    let numbers: Option<Vec<u64>> = arguments.iter().map(|text| text.parse().ok()).collect();
    let (count, first) = match numbers.as_deref() {
        Some([]) => (SHEETS, 0),
        Some([count]) => (*count, 0),
        Some([count, first]) => (*count, *first),
        _ => {
            eprintln!("usage: differential [COUNT [FIRST_SEED]] | differential --floats");
            return ExitCode::from(2);
        }
    };
    status(
        sheets::compare_some(count, first)
            && pairs::compare_some(count / FOR_A_PAIR, first)
            && floats::compare_some(),
    )
}

fn status(alike: bool) -> ExitCode {
    if alike {
        ExitCode::SUCCESS
    } else {
        ExitCode::FAILURE
    }
}

/// What each core finds, which is told its place and how many there are; nothing where one finds a
/// difference.
fn on_every_core<T: Send>(find: impl Fn(usize, usize) -> Option<T> + Sync) -> Option<Vec<T>> {
    let workers = std::thread::available_parallelism().map_or(1, |cores| cores.get());
    std::thread::scope(|scope| {
        let find = &find;
        let started: Vec<_> =
            (0..workers).map(|worker| scope.spawn(move || find(worker, workers))).collect();
        started.into_iter().map(|worker| worker.join().expect("a worker ends")).collect()
    })
}
