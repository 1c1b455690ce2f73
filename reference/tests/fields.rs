//! Fields and lines: which bytes are a number, and what is written.

use reference::field;
use reference::line;
use reference::refusal::Refusal;
use reference::rounding::nearest;

#[test]
fn what_is_written_is_read_back() {
    let powers = (0..8).map(|power| 10_u32.pow(power));
    let numbers = powers.flat_map(|power| [power - 1, power, power + 1, 7 * power, 9 * power]);
    for number in numbers.chain([99_999_999]) {
        let mut bytes = [b'?'; 9];
        field::write(&mut bytes, number);
        assert_eq!(bytes.as_slice(), format!("{number:>9}").as_bytes());
        assert_eq!(field::read(&bytes), Some(number));
    }
}

#[test]
fn one_changed_byte_is_judged_as_the_paper_words_it() {
    for text in ["        0", "        7", "       10", "     1500", " 99999999"] {
        for place in 0..9 {
            for byte in 0..=255 {
                let mut bytes: [u8; 9] = text.as_bytes().try_into().unwrap();
                bytes[place] = byte;
                assert_eq!(field::read(&bytes), by_the_words(&bytes), "{bytes:?}");
            }
        }
    }
}

/// A number of one to eight digits with spaces before it, no leading zero except 0 itself.
fn by_the_words(bytes: &[u8; 9]) -> Option<u32> {
    let text = std::str::from_utf8(bytes).ok()?;
    let digits = text.trim_start_matches(' ');
    let number: u32 = digits.parse().ok()?;
    (number < 100_000_000 && digits == number.to_string()).then_some(number)
}

#[test]
fn faults_of_a_line() {
    assert_eq!(line::read::<1>(b"E       12\n"), Ok([12]));
    assert_eq!(line::read::<1>(b"E       12\nmore"), Ok([12]));
    assert_eq!(line::read::<1>(b"E       12"), Err(Refusal::LineMissing));
    assert_eq!(line::read::<1>(b"E       02 no end"), Err(Refusal::LineMissing));
    assert_eq!(line::read::<1>(b"E      02\n"), Err(Refusal::LineLength));
    assert_eq!(line::read::<1>(b"E       12\r\n"), Err(Refusal::LineLength));
    assert_eq!(line::read::<1>(b"E    \n  12\n"), Err(Refusal::LineLength));
    assert_eq!(line::read::<1>(b"E       02\n"), Err(Refusal::Field));
}

#[test]
fn a_half_goes_up() {
    assert_eq!(nearest(0, 7), 0);
    assert_eq!(nearest(3, 7), 0);
    assert_eq!(nearest(4, 7), 1);
    assert_eq!(nearest(1, 2), 1);
    assert_eq!(nearest(3, 2), 2);
    assert_eq!(nearest(5, 2), 3);
    assert_eq!(nearest(7, 1), 7);
    assert_eq!(nearest(u64::MAX, 2), 1 << 63);
}
