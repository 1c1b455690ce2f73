//! Tables of calls: what each call answers, and its time by the proved code and the reference.

use std::fmt::{Debug, Display};
use std::hint::black_box;

use reference::Refusal;

use crate::timing;

/// Prints what a table is of, and the heads of its columns, of which the first two are named.
pub fn head(of: &str, [call, answer]: [&str; 2]) {
    println!();
    println!("{of}");
    println!("{call:38} {answer:>10} {:>8} {:>9} {:>20}", "proved", "reference", "/ reference");
}

/// Times both and prints the line of a call.
pub fn line(
    name: &str,
    answer: impl Display,
    proved: &mut dyn FnMut(),
    reference: &mut dyn FnMut(),
) {
    line_of(1, name, answer, proved, reference);
}

/// Times both, each of which makes so many calls in a pass, and prints the line of one.
pub fn line_of(
    calls: usize,
    name: &str,
    answer: impl Display,
    proved: &mut dyn FnMut(),
    reference: &mut dyn FnMut(),
) {
    let [proved, reference] = timing::least([proved, reference]).map(|time| time / calls as f64);
    println!("{name:38} {answer:>10} {proved:>8.1} {reference:>9.1} {:>20.2}", proved / reference);
}

/// Prints the line of a call that answers one figure; a refused call leaves its place as it is.
pub fn compare_figure<T: Copy + Debug + Default + Display + PartialEq>(
    name: &str,
    proved: impl Fn(&mut T) -> u32,
    reference: impl Fn() -> Result<T, Refusal>,
) {
    let mut figure = T::default();
    let refused = proved(&mut figure);
    let expected = reference();
    let handed = (number(&expected), expected.unwrap_or_default());
    assert_eq!((refused, figure), handed, "{name}: answers differ");
    let answer = if refused == 0 { figure.to_string() } else { refused.to_string() };
    line(
        name,
        answer,
        &mut || {
            black_box(proved(black_box(&mut figure)));
        },
        &mut || {
            black_box(reference()).ok();
        },
    );
}

/// The number that an answer of the reference hands back.
pub fn number<T>(answer: &Result<T, Refusal>) -> u32 {
    answer.as_ref().map_or_else(|refusal| refusal.number(), |_| 0)
}
