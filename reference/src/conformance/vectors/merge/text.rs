//! The line of a vector: the pair, the buffer's bytes, and what the merge hands back.

use super::super::{numbers, words, Group, Written};
use super::Vector;

/// What stands before the vectors.
const HEAD: &str = "\
# Merging as a caller of a library sees it: document 02, request (k). Made by make_conformance.
#
# A case is one line. Its parts stand between bars:
#   name
#   pair     the two sheets are in the files PAIR.first and PAIR.second
#   buffer   how many bytes are lent for the merged sheet; 39771 at least, else 1 comes first
#   answer   three numbers: the length of what is written, the refusal's number or 0, and its line,
#            which is 0 but for a sheet's own refusal from 3 on
# Where the number is 0 the merged sheet, which is in PAIR.merged, stands at the start of the buffer and
# every byte past it is as it was lent; else every byte of the buffer is as it was lent.
# Lines that begin with # and empty lines are no cases.
";

impl Written for Vector {
    const FILE: &'static str = "merge-buffer.vectors";
    const HEAD: &'static str = HEAD;
    const ANSWERS: &'static str = include_str!("answers.txt");

    fn groups() -> Vec<Group<Self>> {
        super::groups()
    }

    fn name(&self) -> &str {
        &self.name
    }

    fn question(&self) -> String {
        format!("{} | {}", self.pair, self.buffer)
    }

    fn answer(&self) -> String {
        let (handed_back, _) = self.work_out();
        words([handed_back.length, handed_back.number as usize, handed_back.line as usize])
    }

    fn read<'a>(mut part: impl FnMut() -> &'a str) -> Self {
        let (name, pair) = (part().to_string(), part().to_string());
        let [buffer] = numbers(part());
        Self { name, pair, buffer }
    }
}
