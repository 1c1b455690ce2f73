//! One field of a line: a number of one to eight digits, right-justified in nine columns.

/// Columns of a field.
pub const COLUMNS: usize = 9;

/// Reads a field. A number has no sign and no leading zero, and spaces alone are no number.
pub fn read(field: &[u8; COLUMNS]) -> Option<u32> {
    let spaces = field.iter().position(|&byte| byte != b' ')?;
    let digits = &field[spaces..];
    let leading_zero = digits[0] == b'0' && digits.len() > 1;
    if spaces == 0 || leading_zero {
        return None;
    }
    let mut number = 0;
    for &byte in digits {
        if !byte.is_ascii_digit() {
            return None;
        }
        number = number * 10 + u32::from(byte - b'0');
    }
    Some(number)
}

/// Writes a number of at most eight digits as a field.
pub fn write(field: &mut [u8; COLUMNS], number: u32) {
    *field = [b' '; COLUMNS];
    let mut rest = number;
    for byte in field.iter_mut().rev() {
        *byte = b'0' + (rest % 10) as u8;
        rest /= 10;
        if rest == 0 {
            break;
        }
    }
}
