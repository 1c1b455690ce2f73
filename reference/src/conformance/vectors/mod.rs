//! Files of vectors: questions that no sheet asks, each with a name that says what it tries and the
//! answer that it must give.
//!
//! The answers stand in an `answers.txt` for each file, worked out by a separate calculation; the tests
//! compare them with what this package answers.

pub mod expansion;
pub mod laboratory;
pub mod merge;
pub mod permitted;
pub mod probe;
pub mod probe_car;
pub mod probe_error;
mod probe_parts;
pub mod probe_train;
pub mod stick;
pub mod tape;
pub mod train;

use std::str::FromStr;

/// A vector as it stands on its line: name, question and answer, in parts between bars.
pub trait Written: Sized + 'static {
    /// The name of the file.
    const FILE: &'static str;
    /// What stands before the vectors: what their parts are.
    const HEAD: &'static str;
    /// The name and the answer by the separate calculation, one line for each vector.
    const ANSWERS: &'static str;

    /// All vectors.
    fn groups() -> Vec<Group<Self>>;

    fn name(&self) -> &str;

    /// The parts between name and answer.
    fn question(&self) -> String;

    /// The parts behind them, as this package answers.
    fn answer(&self) -> String;

    /// Reads name and question, part by part.
    fn read<'a>(part: impl FnMut() -> &'a str) -> Self;
}

/// Vectors that try the same, and what that is.
pub struct Group<V> {
    about: &'static str,
    vectors: Vec<V>,
}

/// All vectors of a file.
pub fn all<V: Written>() -> Vec<V> {
    V::groups().into_iter().flat_map(|group| group.vectors).collect()
}

/// The answer to a vector by the separate calculation, as it stands on its line.
pub fn expected<V: Written>(name: &str) -> Option<&'static str> {
    let mut answers = V::ANSWERS.lines().filter_map(|line| line.split_once(" | "));
    answers.find(|(of, _)| *of == name).map(|(_, answer)| answer)
}

/// The whole file, with the answers of this package.
pub fn file<V: Written>() -> String {
    let mut text = String::from(V::HEAD);
    for group in V::groups() {
        text.push_str(&format!("\n# {}\n", group.about));
        for vector in group.vectors {
            let (name, question, answer) = (vector.name(), vector.question(), vector.answer());
            text.push_str(&format!("{name} | {question} | {answer}\n"));
        }
    }
    text
}

/// The vectors of a file, each with its answer.
///
/// # Panics
///
/// If a line is not a vector's.
pub fn read<V: Written>(file: &str) -> Vec<(V, &str)> {
    let cases = file.lines().filter(|line| !line.is_empty() && !line.starts_with('#'));
    cases.map(read_line).collect()
}

fn read_line<V: Written>(line: &str) -> (V, &str) {
    let mut rest = line;
    let vector = V::read(|| {
        let (part, behind) = rest.split_once(" | ").unwrap_or_else(|| panic!("no vector: {line}"));
        rest = behind;
        part
    });
    (vector, rest)
}

/// Numbers as a part of a line.
fn words<T: ToString, const N: usize>(numbers: [T; N]) -> String {
    numbers.map(|number| number.to_string()).join(" ")
}

/// The numbers of a part.
fn numbers<T: FromStr, const N: usize>(text: &str) -> [T; N] {
    let parse = |word: &str| word.parse().unwrap_or_else(|_| panic!("no number: {word}"));
    let numbers: Vec<T> = text.split(' ').map(parse).collect();
    let Ok(numbers) = numbers.try_into() else { panic!("not {N} numbers: {text}") };
    numbers
}
