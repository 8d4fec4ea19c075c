//! What makes a file no list or no image, if it is one of the usual things,
//! and the remedy.

use pansdaoh::{BUCKET, LINE};

const IMPORT: &str =
    "figures stand in columns with blanks or zeros before them; tares import makes a list of a CSV file";

/// What keeps a file from being a list.
pub fn list_faults(list: &[u8]) -> Vec<String> {
    if is_utf_16(list) {
        return vec!["the file is UTF-16: save it as plain text (ASCII)".to_string()];
    }
    let mut faults = Vec::new();
    if list.starts_with(b"\xef\xbb\xbf") {
        faults.push("the file begins with a byte order mark: save it without one".to_string());
    }
    faults.extend(carriage_returns(list));
    let lines = || list.split(|&byte| byte == b'\n');
    let with = |byte: u8| lines().position(|line| line.contains(&byte)).map(|line| line + 1);
    for (byte, name) in [(b'\t', "a tab"), (b',', "a comma"), (b';', "a semicolon")] {
        faults.extend(with(byte).map(|line| format!("line {line} has {name}: {IMPORT}")));
    }
    let last = list.rsplit(|&byte| byte == b'\n').next().map_or(0, |line| line.len());
    if last == LINE - 1 {
        faults.push("the last line has no newline behind it: add one".to_string());
    } else if last > 0 {
        faults.push(format!(
            "the last line has {last} characters and no newline, 26 and one are due"
        ));
    }
    if faults.is_empty() {
        faults.extend(other_length(list));
    }
    faults
}

/// The first line that is too short or too long.
fn other_length(list: &[u8]) -> Option<String> {
    let ended = list.strip_suffix(b"\n").unwrap_or(list);
    let mut lines = ended.split(|&byte| byte == b'\n').enumerate();
    let (line, text) = lines.find(|(_, line)| line.len() != LINE - 1)?;
    if text.len() == BUCKET - 1 {
        return Some("the file looks like an image".to_string());
    }
    Some(format!("line {} has {} characters before its newline, 26 are due", line + 1, text.len()))
}

/// What keeps a file from being an image.
pub fn image_faults(image: &[u8]) -> Vec<String> {
    let mut faults: Vec<String> = carriage_returns(image).into_iter().collect();
    if image.starts_with(b"\xef\xbb\xbf") {
        faults.push("the file begins with a byte order mark".to_string());
    }
    let rest = image.len() % BUCKET;
    if image.get(LINE - 1) == Some(&b'\n') {
        faults.push("the file looks like a list".to_string());
    } else if faults.is_empty() && rest > 0 {
        let last = image.len() / BUCKET;
        faults.push(format!("bucket {last} has only {rest} of its {BUCKET} bytes"));
    }
    faults
}

fn carriage_returns(bytes: &[u8]) -> Option<String> {
    let found = bytes.windows(2).any(|two| two == b"\r\n");
    found.then(|| "lines end in CR LF: save with LF alone (or: tr -d '\\r')".to_string())
}

/// Marked as UTF-16, or every other of its first bytes 0.
pub fn is_utf_16(bytes: &[u8]) -> bool {
    let zeros = |from: usize| bytes.len() >= 8 && (from..8).step_by(2).all(|at| bytes[at] == 0);
    bytes.starts_with(b"\xff\xfe") || bytes.starts_with(b"\xfe\xff") || zeros(0) != zeros(1)
}
