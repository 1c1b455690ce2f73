//! Asks every exported operation but the sheet and the reference the same, edge values first, and
//! compares the number handed back and all that is lent: `operations [TIMES]`, with so many inputs
//! by lot for each operation that has some. Ends with status 1 at the first difference.

mod cars;
mod figures;
mod laboratory;
mod lines;
mod permitted;
mod probe;
mod stick;
mod tables;
mod tally;
mod trains;

use std::process::ExitCode;

use tally::Tally;

/// Inputs by lot where the caller names no count.
const TIMES: u64 = 200_000;

fn main() -> ExitCode {
    let arguments: Vec<String> = std::env::args().skip(1).collect();
    let times = match &arguments[..] {
        [] => Some(TIMES),
        [times] => times.parse().ok(),
        _ => None,
    };
    let Some(times) = times else {
        eprintln!("usage: operations [TIMES]");
        return ExitCode::from(2);
    };

    let inputs = [
        lines::read_line(times).print(),
        lines::write_line(times).print(),
        figures::mean_level(times).print(),
        figures::tape_allowance(times).print(),
        stick::stick_against_tape(times).print(),
        tables::check_tables(times).print(),
        tables::checked_volume(times).print(),
        figures::expansion_of(times).print(),
        figures::factor_of().print(),
        figures::density_at_20().print(),
        figures::density_at_20_of_grade().print(),
        laboratory::density_at_15(times).print(),
        figures::oil_share().print(),
        figures::oil_share_any_grade().print(),
        cars::work_out(times).print(),
        permitted::permitted_error(times).print(),
        probe::reading_tenths(times).print(),
        probe::set_tenths(times).print(),
        probe::work_out_probe(times).print(),
        probe::permitted_error_probe(times).print(),
        trains::train_empty().print(),
        trains::enter_and_strike(times).map(Tally::print).iter().sum(),
    ];
    println!("{} inputs answered alike, numbers and all that is lent", inputs.iter().sum::<u64>());
    ExitCode::SUCCESS
}
