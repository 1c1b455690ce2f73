//! The time of one pass of some programs, by turns in one run.

use std::time::Instant;

/// Rounds of the programs by turns; the least time of each counts, which other work on the machine
/// disturbs least.
pub const ROUNDS: usize = 300;

/// Nanoseconds that one round of one program lasts, or somewhat more, since it has whole passes.
const ROUND_TIME: f64 = 250_000.0;

/// Nanoseconds for one pass of each program.
pub fn least<const N: usize>(mut programs: [&mut dyn FnMut(); N]) -> [f64; N] {
    let passes = programs.each_mut().map(|program| passes_of_a_round(program));
    let mut least = [f64::MAX; N];
    for _ in 0..ROUNDS {
        for ((time, program), passes) in least.iter_mut().zip(&mut programs).zip(passes) {
            *time = time.min(nanoseconds(program, passes));
        }
    }
    least
}

/// How many passes a round of a program has; finding it warms the program up. Of two trials the shorter
/// counts, since other work on the machine lengthens one.
fn passes_of_a_round(program: &mut dyn FnMut()) -> u32 {
    let mut passes = 1;
    loop {
        let time = nanoseconds(program, passes).min(nanoseconds(program, passes));
        if time * f64::from(passes) >= ROUND_TIME {
            return (ROUND_TIME / time).ceil() as u32;
        }
        passes *= 2;
    }
}

/// Nanoseconds for one pass, on average over so many.
fn nanoseconds(program: &mut dyn FnMut(), passes: u32) -> f64 {
    let start = Instant::now();
    for _ in 0..passes {
        program();
    }
    start.elapsed().as_nanos() as f64 / f64::from(passes)
}
