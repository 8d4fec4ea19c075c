//! Lists by the numbers of their lines, in which leading zeros make no difference,
//! and the lines in which two lists differ, by tag.

use pansdaoh::LINE;

use crate::columns::{list_number, FIGURES};

/// A line's four numbers: tag, tare, material code, weighing number.
pub type Line = [u64; 4];

/// These lines as a list. A number that is too large makes its line longer.
pub fn printed(lines: &[Line]) -> Vec<u8> {
    let mut list = String::with_capacity(LINE * lines.len());
    for [tag, tare, material, number] in lines {
        list += &format!("{tag:>10}{tare:>6}{material:>4}{number:>6}\n");
    }
    list.into_bytes()
}

/// How many different tags a list has that is well printed and sorted by tag.
pub fn different_tags(list: &[u8]) -> usize {
    lines(list).chunk_by(|line, next| line[0] == next[0]).count()
}

/// A text for each line that differs. Both lists are well printed and sorted by tag.
pub fn differing_lines(list: &[u8], other: &[u8]) -> Vec<String> {
    let (list, other) = (lines(list), lines(other));
    let mut texts = Vec::new();
    let (mut at, mut other_at) = (0, 0);
    while at < list.len() || other_at < other.len() {
        let tag = list.get(at).into_iter().chain(other.get(other_at)).map(|line| line[0]).min();
        let run = |lines: &[Line]| lines.iter().take_while(|line| Some(line[0]) == tag).count();
        let (mine, theirs) = (run(&list[at..]), run(&other[other_at..]));
        add_run(&mut texts, at, &list[at..at + mine], &other[other_at..other_at + theirs]);
        at += mine;
        other_at += theirs;
    }
    texts
}

/// The lines of a list that is well printed.
pub fn lines(list: &[u8]) -> Vec<Line> {
    let numbers = |line: &[u8]| {
        let number = |columns: &[u8]| list_number(columns).unwrap_or_default();
        FIGURES.each_ref().map(|figure| number(&line[figure.columns.clone()]))
    };
    list.chunks_exact(LINE).map(numbers).collect()
}

/// The lines of one tag in both lists; those of the list stand from `at` on.
fn add_run(texts: &mut Vec<String>, at: usize, mine: &[Line], theirs: &[Line]) {
    let alike = mine.iter().zip(theirs).take_while(|(a, b)| a == b).count();
    let (mine, theirs) = (&mine[alike..], &theirs[alike..]);
    let behind = mine.iter().rev().zip(theirs.iter().rev()).take_while(|(a, b)| a == b).count();
    let (mine, theirs) = (&mine[..mine.len() - behind], &theirs[..theirs.len() - behind]);
    let both = mine.len().min(theirs.len());
    for (i, line) in mine.iter().enumerate() {
        let number = at + alike + i + 1;
        texts.push(match theirs.get(i) {
            Some(other) => altered(number, line, other),
            None => format!("line {number} ({}) is not in the image", text(line)),
        });
    }
    for line in &theirs[both..] {
        texts.push(format!("not in the list: {}", text(line)));
    }
}

fn altered(number: usize, line: &Line, other: &Line) -> String {
    let mut text = format!("line {number} (tag {})", line[0]);
    for ((figure, expected), found) in FIGURES.iter().zip(line).zip(other) {
        if expected != found {
            text += &format!(", {}: expected {expected}, found {found}", figure.name);
        }
    }
    text
}

/// A line in words.
pub fn text(line: &Line) -> String {
    let figures =
        FIGURES.iter().zip(line).map(|(figure, number)| format!("{} {number}", figure.name));
    figures.collect::<Vec<String>>().join(", ")
}
