//! Times `answer_sheet` on full sheets, without strikes and with sixty, one again and again and many in
//! turn, and the generator.

use std::hint::black_box;
use std::time::Instant;

use reference::sheets;
use reference::{answer_sheet, ANSWER_BYTES};

fn main() {
    for full in [sheets::full_sheet, sheets::fullest_sheet] {
        let many: Vec<Vec<u8>> = (0..256).map(full).collect();
        let one = &many[..1];
        println!("one sheet of {} bytes: {:.1} µs", one[0].len(), shortest(one, 5_000));
        println!("{} sheets in turn: {:.1} µs each", many.len(), shortest(&many, 50));
    }

    let start = Instant::now();
    let bytes: usize = (0..20_000).map(|seed| sheets::sheet(seed).len()).sum();
    println!("making 20,000 sheets, {bytes} bytes: {:.2} s", start.elapsed().as_secs_f64());
}

/// The shortest time of a sheet over so many rounds, in µs.
fn shortest(sheets: &[Vec<u8>], rounds: u32) -> f64 {
    let mut answer = [0; ANSWER_BYTES];
    let mut shortest = f64::INFINITY;
    for _ in 0..rounds {
        let start = Instant::now();
        for sheet in sheets {
            black_box(answer_sheet(black_box(sheet), &mut answer));
        }
        shortest = shortest.min(start.elapsed().as_secs_f64() / sheets.len() as f64);
    }
    shortest * 1e6
}
