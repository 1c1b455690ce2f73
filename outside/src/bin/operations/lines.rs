//! One line read and one line written: every byte of each letter's line replaced by every other,
//! every cut, a byte more at every place, every room, then damage by lot.

use outside::random::Random;
use outside::{BAD_LENGTH, BAD_LETTER, FIELDS};
use reference::operations;

use crate::figures::ENDS;
use crate::tally::{Tally, LENT};

/// The letters of a sheet's lines, of which K is an answer's too, then those of an answer's alone.
const LETTERS: [u8; 10] = *b"TRCKEAXSGZ";

/// A byte that no answer writes.
const LENT_BYTE: u8 = 0xa5;

/// Compares a text, with lent numbers of any length: the letter and the numbers are told behind
/// the number handed back.
fn compare_read(tally: &mut Tally, text: &[u8], length: usize) {
    let mut letter = LENT_BYTE;
    let mut numbers = vec![LENT; length];
    let number = outside::read_line(text, &mut letter, &mut numbers);
    let expected = match operations::read_line(text) {
        _ if length != FIELDS => (BAD_LENGTH, (LENT_BYTE, vec![LENT; length])),
        Ok((letter, mut numbers)) => {
            numbers.resize(FIELDS, 0);
            (0, (letter, numbers))
        }
        Err(refusal) => (refusal.number(), (LENT_BYTE, vec![LENT; length])),
    };
    tally.compare(text.escape_ascii().to_string(), (number, (letter, numbers)), expected);
}

/// A line of a sheet or of an answer.
fn line(letter: u8, number: impl FnMut(usize) -> u32) -> Vec<u8> {
    let count = operations::fields(letter).expect("a letter");
    let numbers: Vec<u32> = (0..count).map(number).collect();
    let mut line = vec![0; 2 + 9 * count];
    operations::write_line(&mut line, letter, &numbers).expect("small numbers");
    line
}

pub fn read_line(times: u64) -> Tally {
    let mut tally = Tally::new("read_line");
    let lines = LETTERS.map(|letter| line(letter, |place| 10_u32.pow(place as u32 % 8)));
    for length in [0, 1, FIELDS - 1, FIELDS + 1, 2 * FIELDS] {
        compare_read(&mut tally, &lines[2], length);
    }
    for line in &lines {
        for end in 0..=line.len() {
            compare_read(&mut tally, &line[..end], FIELDS);
            for byte in *b" 0\nGK" {
                let mut longer = line.clone();
                longer.insert(end, byte);
                compare_read(&mut tally, &longer, FIELDS);
            }
        }
        for place in 0..line.len() {
            for byte in 0..=u8::MAX {
                let mut other = line.clone();
                other[place] = byte;
                compare_read(&mut tally, &other, FIELDS);
            }
        }
    }
    let mut random = Random::new(2);
    for _ in 0..times {
        let letter = random.pick(b"TRCKETRCKEAXSGZ");
        let highest = random.pick(&[0, 9, 9_999, 99_999_999]);
        let mut text = line(letter, |_| random.between(0, highest));
        for _ in 0..random.below(4) {
            damage(&mut random, &mut text);
        }
        compare_read(&mut tally, &text, FIELDS);
    }
    tally
}

/// Replaces, takes out or puts in a byte, or puts bytes behind.
fn damage(random: &mut Random, text: &mut Vec<u8>) {
    let byte = random.pick(b" 0123456789\n\n\rTRCKEAXSGZ-+.\0\xff");
    let place = random.below(text.len() + 1);
    match random.below(4) {
        0 if place < text.len() => text[place] = byte,
        1 if place < text.len() => drop(text.remove(place)),
        2 => text.insert(place, byte),
        _ => text.extend_from_slice(&[byte; 3]),
    }
}

/// Compares a letter, numbers of any length and so much room: the length and the whole buffer, with
/// bytes on both sides of it, are told behind the number handed back.
fn compare_write(tally: &mut Tally, letter: u8, numbers: &[u32], room: usize) {
    let mut proved = vec![LENT_BYTE; room + 16];
    let mut expected = proved.clone();
    let mut length = LENT as usize;
    let number = outside::write_line(letter, numbers, &mut proved[8..8 + room], &mut length);
    let unwritten = LENT as usize;
    let (expected_number, expected_length) = match operations::fields(letter) {
        _ if numbers.len() != FIELDS => (BAD_LENGTH, unwritten),
        None => (BAD_LETTER, unwritten),
        Some(count) => {
            let buffer = &mut expected[8..8 + room];
            match operations::write_line(buffer, letter, &numbers[..count]) {
                Some(length) => (0, length),
                None => (operations::WRITING, unwritten),
            }
        }
    };
    let input = (char::from(letter), numbers, room);
    tally.compare(
        input,
        (number, (length, proved)),
        (expected_number, (expected_length, expected)),
    );
}

pub fn write_line(times: u64) -> Tally {
    let mut tally = Tally::new("write_line");
    for length in [0, 1, FIELDS - 1, FIELDS + 1, 2 * FIELDS] {
        compare_write(&mut tally, b'C', &vec![1; length], 200);
    }
    for letter in 0..=u8::MAX {
        compare_write(&mut tally, letter, &[1; FIELDS], 200);
    }
    for letter in LETTERS {
        for room in 0..=130 {
            compare_write(&mut tally, letter, &[99_999_999; FIELDS], room);
        }
        // A large number in each place, of which those that the letter does not use count for nothing.
        for place in 0..FIELDS {
            for number in ENDS {
                let mut numbers = [5; FIELDS];
                numbers[place] = number;
                compare_write(&mut tally, letter, &numbers, 128);
            }
        }
    }
    let mut random = Random::new(3);
    for _ in 0..times {
        let highest = random.pick(&[9, 99_999_999, 99_999_999, 100_000_003]);
        let numbers = [(); FIELDS].map(|()| random.between(0, highest));
        let room = random.pick(&[10, 11, 19, 20, 28, 29, 37, 38, 55, 56, 127, 128, 200]);
        compare_write(&mut tally, random.pick(&LETTERS), &numbers, room);
    }
    tally
}
