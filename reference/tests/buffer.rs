//! What happens to the answer buffer: too short, long enough, and past the answer.

use reference::{answer_sheet, sheets, ANSWER_BYTES, SHEET_BYTES};

const NO_CARS: &[u8] =
    b"T        1        2\nR        0        0\nR        1        1\nE        0\n";

const NO_CARS_LISTING: &[u8] = b"\
S        0        0        0
G        1        0        0        0
G        2        0        0        0
G        3        0        0        0
G        4        0        0        0
";

#[test]
fn sizes() {
    assert_eq!(SHEET_BYTES, 48_111);
    assert_eq!(SHEET_BYTES, 4 * 401 * 20 + 120 * 128 + 60 * 11 + 11);
    assert_eq!(ANSWER_BYTES, 8_101);
    assert_eq!(ANSWER_BYTES, 120 * 56 + 60 * 20 + 29 + 4 * 38);
}

#[test]
fn too_short_a_buffer_is_left_alone() {
    for length in [0, 1, 20, 29, 181, 3_389, 3_541, 7_561, 8_100] {
        for sheet in [NO_CARS, b"", b"hello", &[b' '; SHEET_BYTES + 1]] {
            let mut answer = vec![0xa5; length];
            assert_eq!(answer_sheet(sheet, &mut answer), (0, 1));
            assert_eq!(answer, vec![0xa5; length]);
        }
    }
}

#[test]
fn bytes_past_the_answer_stay() {
    let too_long = vec![b' '; SHEET_BYTES + 1];
    let cases: [(&[u8], &[u8], u32); 4] = [
        (NO_CARS, NO_CARS_LISTING, 0),
        (b"", b"Z        1        3\n", 3),
        (b"hello\n", b"Z        1        4\n", 4),
        (&too_long, b"Z        0        2\n", 2),
    ];
    for room in [8_101, 8_102, 20_000] {
        for (sheet, listing, handed_back) in cases {
            let mut answer = vec![0xa5; room];
            let (length, number) = answer_sheet(sheet, &mut answer);
            assert_eq!(number, handed_back);
            assert_eq!(&answer[..length], listing);
            assert!(answer[length..].iter().all(|&byte| byte == 0xa5));
        }
    }
}

/// All 120 cars are accepted, which only sixty strikes allow. No listing is longer: with a strike less
/// done, an X line of 20 bytes comes for its K line of 11, and one of 20 for an A line of 56.
#[test]
fn the_longest_listing_in_the_smallest_buffer() {
    let mut answer = [0xa5; ANSWER_BYTES];
    let sheet = sheets::fullest_sheet(1);
    let length = 120 * 56 + 60 * 11 + 29 + 4 * 38;
    assert_eq!((sheet.len(), length), (SHEET_BYTES, 7_561));
    assert_eq!(answer_sheet(&sheet, &mut answer), (length, 0));
    let (listing, rest) = answer.split_at(length);
    assert!(rest.iter().all(|&byte| byte == 0xa5));
    assert_eq!(listing.iter().filter(|&&byte| byte == b'\n').count(), 185);
    assert!(listing.starts_with(b"A"));
    assert!(listing[length - 181..].starts_with(b"S       60"));
    assert!(listing[length - 38..].starts_with(b"G        4"));
}

#[test]
fn a_sheet_without_strikes_in_the_smallest_buffer() {
    let mut answer = [0xa5; ANSWER_BYTES];
    let sheet = sheets::full_sheet(1);
    assert_eq!(sheet.len(), 39_771);
    assert_eq!(answer_sheet(&sheet, &mut answer), (3_541, 0));
    assert_eq!(answer[..3_541].iter().filter(|&&byte| byte == b'\n').count(), 65);
    assert!(answer[3_541..].iter().all(|&byte| byte == 0xa5));
}
