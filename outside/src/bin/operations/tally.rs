//! What was compared of one operation.

use std::collections::BTreeMap;
use std::fmt::Debug;
use std::process::exit;

/// What a place holds before it is lent: no figure of any operation.
pub const LENT: u32 = 0xa5a5_a5a5;
/// The same of a place of 64 bits.
pub const LENT_64: u64 = 0xa5a5_a5a5_a5a5_a5a5;

/// Inputs of one operation, counted by the number handed back.
pub struct Tally {
    operation: &'static str,
    inputs: u64,
    numbers: BTreeMap<u32, u64>,
}

impl Tally {
    pub fn new(operation: &'static str) -> Self {
        Self { operation, inputs: 0, numbers: BTreeMap::new() }
    }

    /// Compares the number handed back and what the lent places hold; ends the program with status
    /// 1 where they differ.
    pub fn compare<T: PartialEq + Debug>(
        &mut self,
        input: impl Debug,
        proved: (u32, T),
        expected: (u32, T),
    ) {
        if proved != expected {
            println!("{}: the answers differ on {input:?}", self.operation);
            println!("proved: {proved:?}");
            println!("reference: {expected:?}");
            exit(1);
        }
        self.inputs += 1;
        *self.numbers.entry(proved.0).or_default() += 1;
    }

    /// Prints the counts and returns that of the inputs.
    pub fn print(self) -> u64 {
        let numbers: Vec<String> =
            self.numbers.iter().map(|(number, count)| format!("{number}: {count}")).collect();
        println!(
            "{:24} {:>9} inputs; by number: {}",
            self.operation,
            self.inputs,
            numbers.join(", ")
        );
        self.inputs
    }
}

/// An answer of the reference as an exported operation hands it over: the number, and the figure
/// in the lent place.
pub fn handed<T>(answer: Result<T, reference::Refusal>, lent: T) -> (u32, T) {
    match answer {
        Ok(figure) => (0, figure),
        Err(refusal) => (refusal.number(), lent),
    }
}

/// Numbers on both sides of a lent slice, which nobody may touch.
const MARGIN: usize = 8;

/// A slice to be lent, with a margin on both sides.
#[derive(Clone, Debug, PartialEq)]
pub struct Lent(Vec<u32>);

impl Lent {
    pub fn new(contents: &[u32]) -> Self {
        Self([&[LENT; MARGIN], contents, &[LENT; MARGIN]].concat())
    }

    pub fn slice(&mut self) -> &mut [u32] {
        let end = self.0.len() - MARGIN;
        &mut self.0[MARGIN..end]
    }
}
