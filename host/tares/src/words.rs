//! Numbers of things.

pub fn counted(count: usize, what: &str) -> String {
    format!("{count} {what}{}", if count == 1 { "" } else { "s" })
}

/// The measures of a list and its cycle.
pub fn counts(lines: usize, buckets: usize) -> String {
    format!("{}, {}", counted(lines, "line"), counted(buckets, "bucket"))
}
