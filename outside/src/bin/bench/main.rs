//! Times the proved code beside the reference and beside a program tuned by hand, on the same
//! sheets, and beside the reference alone for two sheets merged, B, E and the density at 20 °C of a density, a
//! dipped car alone, a car entered in a train and struck from it, the permitted error of a car, the density at
//! 15 °C of a report, the tape allowance at a level, a stick against the tape and a probe's readings and cars,
//! in one run of some seconds.

mod calls;
mod cars;
mod expansion;
mod given;
mod laboratory;
mod merges;
mod permitted;
mod probe;
mod sheets;
mod small_sheets;
mod stick;
mod tape;
mod timing;
mod trains;

fn main() {
    sheets::compare_all();
    merges::compare_all();
    expansion::compare_all();
    cars::compare_all();
    trains::compare_all();
    permitted::compare_all();
    laboratory::compare_all();
    tape::compare_all();
    stick::compare_all();
    probe::compare_all();
}
