//! Tokens of Rust source, in as many kinds as the rewriting needs.

#[derive(Clone, Copy, Debug, PartialEq, Eq)]
pub enum Kind {
    Word,
    Number,
    /// A byte such as `b'0'`.
    Byte,
    /// A byte string such as `b"TCE"`.
    Bytes,
    Open,
    Close,
    Mark,
}

#[derive(Clone, Copy, Debug)]
pub struct Token<'a> {
    pub kind: Kind,
    pub text: &'a str,
    pub start: usize,
    pub end: usize,
    /// White space stands on both sides, as around every operator of two operands.
    pub spaced: bool,
}

/// Marks of more than one character, longest first.
const MARKS: [&str; 18] = [
    "..=", "=>", "->", "::", "==", "!=", "<=", ">=", "&&", "||", "+=", "-=", "*=", "/=", "%=",
    "..", "<<", ">>",
];

/// The tokens of a source without its comments.
pub fn of(source: &str) -> Vec<Token<'_>> {
    let mut tokens = Vec::new();
    let mut place = 0;
    while place < source.len() {
        let rest = &source[place..];
        let skipped = blank(rest);
        if skipped > 0 {
            place += skipped;
            continue;
        }
        let (kind, length) = first(rest);
        let end = place + length;
        let bytes = source.as_bytes();
        let white = |byte: Option<&u8>| byte.is_some_and(u8::is_ascii_whitespace);
        let spaced = place > 0 && white(bytes.get(place - 1)) && white(bytes.get(end));
        tokens.push(Token { kind, text: &source[place..end], start: place, end, spaced });
        place = end;
    }
    tokens
}

/// Length of the white space or the comment at the start.
fn blank(rest: &str) -> usize {
    if rest.starts_with("//") {
        return rest.find('\n').unwrap_or(rest.len());
    }
    rest.len() - rest.trim_start().len()
}

/// Kind and length of the first token.
fn first(rest: &str) -> (Kind, usize) {
    let while_word = |text: &str| {
        text.find(|c: char| !c.is_ascii_alphanumeric() && c != '_').unwrap_or(text.len())
    };
    if rest.starts_with("b'") {
        let close = if rest.as_bytes()[2] == b'\\' { 4 } else { 3 };
        return (Kind::Byte, rest[close..].find('\'').expect("a byte ends") + close + 1);
    }
    if let Some(string) = rest.strip_prefix("b\"") {
        return (Kind::Bytes, string.find('"').expect("a string ends") + 3);
    }
    let letter = rest.chars().next().expect("there is a token");
    match letter {
        '0'..='9' => (Kind::Number, while_word(rest)),
        'a'..='z' | 'A'..='Z' | '_' => (Kind::Word, while_word(rest)),
        '\'' => (Kind::Word, 1 + while_word(&rest[1..])),
        '(' | '[' | '{' => (Kind::Open, 1),
        ')' | ']' | '}' => (Kind::Close, 1),
        _ => {
            let long = MARKS.iter().find(|mark| rest.starts_with(**mark));
            (Kind::Mark, long.map_or(letter.len_utf8(), |mark| mark.len()))
        }
    }
}
