//! The listing: the answer to a whole sheet, and refusal 1.

use crate::car::{Car, Figures, Measured, GRADES};
use crate::line;
use crate::refusal::Refusal;
use crate::sheet::{Event, Rejection, Sheet, CAR_LINES, STRIKE_LINES};
use crate::table::Tables;
use crate::train::{Totals, Train};

/// Bytes that an answer buffer must hold: every car accepted, every strike refused, S and the four
/// G lines.
pub const ANSWER_BYTES: usize = CAR_LINES * line::length(6)
    + STRIKE_LINES * line::length(2)
    + line::length(3)
    + GRADES * line::length(4);

const _: () = assert!(ANSWER_BYTES == 8_101);

/// Answers a sheet. Returns the length written to `answer` and the number handed back: 0, or the
/// refusal of the whole sheet. Bytes of `answer` past the length stay as they were.
pub fn answer_sheet(sheet: &[u8], answer: &mut [u8]) -> (usize, u32) {
    if answer.len() < ANSWER_BYTES {
        return (0, Refusal::AnswerBuffer.number());
    }
    let mut listing = Listing { buffer: answer, length: 0 };
    let handed_back = match Sheet::read(sheet) {
        Ok(sheet) => {
            listing.write_sheet(&sheet);
            0
        }
        Err(Rejection { line, refusal }) => {
            listing.write(b'Z', [line, refusal.number()]);
            refusal.number()
        }
    };
    (listing.length, handed_back)
}

/// The listing of a sheet in a vector of its own, for programs that make or compare listings.
pub fn of(sheet: &[u8]) -> Vec<u8> {
    let mut answer = vec![0; ANSWER_BYTES];
    let (length, _) = answer_sheet(sheet, &mut answer);
    answer.truncate(length);
    answer
}

/// A listing being written to a buffer.
struct Listing<'a> {
    buffer: &'a mut [u8],
    length: usize,
}

impl Listing<'_> {
    /// The train begins empty and nobody else alters it, so that it is sound at every line and is not
    /// tested for it again.
    fn write_sheet(&mut self, sheet: &Sheet) {
        let mut train = Train::default();
        for event in sheet.events() {
            match event {
                Event::Enter(car) => self.write_car(&mut train, car, &sheet.tables),
                Event::Strike(number) => self.write_strike(&mut train, *number),
            }
        }
        let Totals { accepted, gross, net } = train.all;
        self.write(b'S', [accepted, gross as u32, net as u32]);
        self.write_grades(&train.grades);
    }

    fn write_car(&mut self, train: &mut Train, car: &Car, tables: &Tables) {
        match train.enter_sound(&Measured::from(car), tables) {
            Ok(Figures { number, level, volume, volume_at_15, gross, net }) => {
                self.write(b'A', [number, level, volume, volume_at_15, gross, net]);
            }
            Err(refusal) => self.write(b'X', [car.number, refusal.number()]),
        }
    }

    fn write_strike(&mut self, train: &mut Train, number: u32) {
        match train.strike_sound(number) {
            Ok(()) => self.write(b'K', [number]),
            Err(refusal) => self.write(b'X', [number, refusal.number()]),
        }
    }

    fn write_grades(&mut self, grades: &[Totals; GRADES]) {
        for (grade, &Totals { accepted, gross, net }) in (1..).zip(grades) {
            self.write(b'G', [grade, accepted, gross as u32, net as u32]);
        }
    }

    fn write<const N: usize>(&mut self, letter: u8, numbers: [u32; N]) {
        self.length += line::write(&mut self.buffer[self.length..], letter, numbers);
    }
}
