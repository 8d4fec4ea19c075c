//! "Printed numbers" and "A list line", for messages. What is accepted or
//! refused is for the library to say.

use std::ops::Range;

/// A number in a list line: its name, columns and largest value.
pub struct Figure {
    pub name: &'static str,
    pub columns: Range<usize>,
    pub most: u64,
}

pub const FIGURES: [Figure; 4] = [
    Figure { name: "tag", columns: 0..10, most: 4_294_967_295 },
    Figure { name: "tare", columns: 10..16, most: 99_999 },
    Figure { name: "material code", columns: 16..20, most: 9_999 },
    Figure { name: "weighing number", columns: 20..26, most: 999_999 },
];

/// The number that the columns of a bucket print, if it is well printed.
pub fn number(columns: &[u8]) -> Option<u64> {
    let leading_zero = |digits: &&str| digits.len() > 1 && digits.starts_with('0');
    digits(columns).filter(|digits| !leading_zero(digits))?.parse().ok()
}

/// The number in the columns of a list line, which may have leading zeros.
pub fn list_number(columns: &[u8]) -> Option<u64> {
    digits(columns)?.parse().ok()
}

/// The digits behind the blanks, if there is nothing else.
fn digits(columns: &[u8]) -> Option<&str> {
    let blanks = columns.iter().take_while(|&&byte| byte == b' ').count();
    let digits = &columns[blanks..];
    std::str::from_utf8(digits).ok().filter(|_| digits.iter().all(u8::is_ascii_digit))
}

/// The columns as they are, with the bytes that do not print escaped.
pub fn quoted(columns: &[u8]) -> String {
    format!("\"{}\"", columns.escape_ascii())
}

pub fn is_blank(columns: &[u8]) -> bool {
    columns.iter().all(|&byte| byte == b' ')
}

/// The number or letter, or the columns as they are.
pub fn shown(columns: &[u8]) -> String {
    match number(columns) {
        Some(number) => number.to_string(),
        None if is_blank(columns) => "blank".to_string(),
        None if columns.iter().all(u8::is_ascii_alphabetic) => columns.escape_ascii().to_string(),
        None => quoted(columns),
    }
}

/// A bucket's line in words.
pub fn line_text(line: &[u8]) -> String {
    let figure =
        |figure: &Figure| format!("{} {}", figure.name, shown(&line[figure.columns.clone()]));
    FIGURES.each_ref().map(figure).join(", ")
}
