//! Sheets and listings as readable text, and small changes to their bytes.

/// Lines of letter and numbers, set in the columns of a sheet.
pub fn columns(text: &str) -> Vec<u8> {
    let mut set = String::new();
    for line in text.lines() {
        let mut words = line.split_whitespace();
        let Some(letter) = words.next() else { continue };
        set.push_str(letter);
        for number in words {
            set.push_str(&format!("{number:>9}"));
        }
        set.push('\n');
    }
    set.into_bytes()
}

/// The sheet with `old` in one of its lines, counted from 1, replaced by `new`. A line's text
/// ends with its line feed.
///
/// # Panics
///
/// If the line does not hold `old`.
pub fn change(sheet: &[u8], line: usize, old: &[u8], new: &[u8]) -> Vec<u8> {
    let before: usize = lines(sheet).take(line - 1).map(<[u8]>::len).sum();
    let changed = lines(sheet).nth(line - 1).expect("the sheet has this line");
    let place = changed.windows(old.len()).position(|window| window == old);
    let start = before + place.expect("the line holds the old text");
    [&sheet[..start], new, &sheet[start + old.len()..]].concat()
}

/// The sheet without one of its lines, counted from 1.
pub fn without(sheet: &[u8], line: usize) -> Vec<u8> {
    let others = lines(sheet).enumerate().filter(|(place, _)| place + 1 != line);
    others.flat_map(|(_, line)| line).copied().collect()
}

/// The first lines of the sheet.
pub fn first_lines(sheet: &[u8], count: usize) -> Vec<u8> {
    lines(sheet).take(count).flatten().copied().collect()
}

fn lines(sheet: &[u8]) -> impl Iterator<Item = &[u8]> {
    sheet.split_inclusive(|&byte| byte == b'\n')
}
