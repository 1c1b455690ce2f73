//! The library as a caller meets it: the conformance sheets, buffers that are too short or just long
//! enough, sheets that are just too long, a strike's line, a train's slice, and the constants of its header.

use outside::train::{state_of, train_of};
use outside::{answer_sheet, FIELDS, TRAIN, TRAIN_GRADES, TRAIN_GROSSES};
use reference::merge::MERGED_BYTES;
use reference::train::Place;
use reference::{conformance, sheets, ANSWER_BYTES, SHEET_BYTES};

#[test]
fn conformance_sheets() {
    for case in conformance::cases() {
        let mut answer = vec![0xa5; ANSWER_BYTES + 7];
        let (length, _) = answer_sheet(&case.sheet, &mut answer);
        assert_eq!(answer[..length], case.listing, "{}", case.name);
        assert!(answer[length..].iter().all(|&byte| byte == 0xa5), "{}", case.name);
    }
}

#[test]
fn every_buffer_that_is_too_short_is_left_alone() {
    for length in 0..ANSWER_BYTES {
        let mut answer = vec![0xa5; length];
        assert_eq!(answer_sheet(b"", &mut answer), (0, 1));
        assert!(answer.iter().all(|&byte| byte == 0xa5));
    }
}

/// 120 A lines and 60 K lines, which no other listing is longer than.
#[test]
fn the_longest_listing_needs_8101_bytes() {
    let fullest = sheets::fullest_sheet(0);
    assert_eq!(fullest.len(), 48_111);
    for length in [0, 3_389, 3_541, 7_560, 7_561, 7_949, 8_100] {
        let mut answer = vec![0xa5; length];
        assert_eq!(answer_sheet(&fullest, &mut answer), (0, 1));
        assert!(answer.iter().all(|&byte| byte == 0xa5));
    }
    for length in [8_101, 8_102, 16_000] {
        let mut answer = vec![0xa5; length];
        assert_eq!(answer_sheet(&fullest, &mut answer), (7_561, 0));
        assert!(answer[7_561..].iter().all(|&byte| byte == 0xa5));
    }
}

#[test]
fn the_longest_sheet_has_48111_bytes() {
    for (length, number) in [(48_110, 3), (48_111, 0), (48_112, 2), (96_222, 2)] {
        let mut sheet = sheets::fullest_sheet(1);
        sheet.resize(length, b'\n');
        assert_eq!(answer_sheet(&sheet, &mut [0; ANSWER_BYTES]).1, number, "{length}");
    }
}

#[test]
fn a_strike_is_read_and_written() {
    let (mut letter, mut numbers) = (0, [9; FIELDS]);
    assert_eq!(outside::read_line(b"K 50000001\n", &mut letter, &mut numbers), 0);
    assert_eq!((letter, numbers[0], &numbers[1..]), (b'K', 50_000_001, &[0; FIELDS - 1][..]));

    for (room, number) in [(10, 22), (11, 0), (12, 0)] {
        let (mut line, mut length) = (vec![0xa5; room], 0);
        assert_eq!(outside::write_line(letter, &numbers, &mut line, &mut length), number);
        if number == 0 {
            assert_eq!(line[..length], *b"K 50000001\n");
        }
        assert!(line[length..].iter().all(|&byte| byte == 0xa5));
    }
}

/// A train keeps its numbers on the way into its slice and back.
#[test]
fn a_train_in_its_slice() {
    let state: [u32; TRAIN] = std::array::from_fn(|place| 0x8000_0001 + 3 * place as u32);
    let train = train_of(&state);
    assert_eq!(state_of(&train), state);
    assert_eq!(train.grades[2].gross, 0x8000_0034_8000_0031);
    assert_eq!(train.held, 0x8000_0001 + 3 * 25);
    assert_eq!(
        train.places[59],
        Place {
            number: state[85],
            grade: state[TRAIN_GRADES + 59],
            gross: state[TRAIN_GROSSES + 59],
            net: state[265],
        }
    );
}

/// Every constant of the header that is a number, and no other.
#[test]
fn constants_of_the_header() {
    let constants = [
        ("SHEET_BYTES", SHEET_BYTES),
        ("ANSWER_BYTES", ANSWER_BYTES),
        ("MERGE_BYTES", MERGED_BYTES),
        ("BAD_LENGTH", outside::BAD_LENGTH as usize),
        ("BAD_LETTER", outside::BAD_LETTER as usize),
        ("FIELDS", FIELDS),
        ("READINGS", outside::READINGS),
        ("TAPE_READINGS", outside::TAPE_READINGS),
        ("STICK", outside::STICK),
        ("TABLES", outside::TABLES),
        ("PLACES", outside::PLACES),
        ("FIGURES", outside::FIGURES),
        ("ERRORS", outside::ERRORS),
        ("PERMITTED", outside::PERMITTED),
        ("PROBE_FIELDS", outside::PROBE_FIELDS),
        ("SET", outside::SET),
        ("TRAIN", TRAIN),
        ("TRAIN_ACCEPTED", outside::TRAIN_ACCEPTED),
        ("TRAIN_GROSS", outside::TRAIN_GROSS),
        ("TRAIN_GROSS_HIGH", outside::TRAIN_GROSS_HIGH),
        ("TRAIN_NET", outside::TRAIN_NET),
        ("TRAIN_NET_HIGH", outside::TRAIN_NET_HIGH),
        ("TRAIN_HELD", outside::TRAIN_HELD),
        ("TRAIN_NUMBERS", outside::TRAIN_NUMBERS),
        ("TRAIN_GRADES", TRAIN_GRADES),
        ("TRAIN_GROSSES", TRAIN_GROSSES),
        ("TRAIN_NETS", outside::TRAIN_NETS),
    ];
    let header = include_str!("../../include/rack.h");
    let defined: Vec<(&str, usize)> = header
        .lines()
        .filter_map(|line| line.strip_prefix("#define RACK_")?.split_once(' '))
        .filter_map(|(name, value)| Some((name, value.parse().ok()?)))
        .collect();
    assert_eq!(defined, constants);
    assert!(header.contains("#define RACK_TRAIN_GRADE(g) (5 * (g))\n"));
}
