//! Lines, buckets, cycles and the tree, drawn from their bytes.

use std::fmt::Write;

use pansdaoh::BUCKET;

use crate::bucket;

/// Where the fields of every bucket start.
const HEAD: [(usize, &str); 6] = [
    (0, "position"),
    (6, "distance to the next cycle"),
    (12, "distance to the next segment"),
    (18, "follow-on"),
    (LETTER, "letter"),
    (PAIR_COUNT, "number of control pairs"),
];
const LETTER: usize = 24;
const PAIR_COUNT: usize = 25;
const COUNT: usize = 27;
const PAIRS: usize = 29;
const ENTRIES: usize = 93;
const LINES: usize = 29;

/// Columns of a tag, of a pair or entry, and of a line without its newline.
const TAG: usize = 10;
const POINTER: usize = 16;
const FIGURES: usize = 26;

/// Where each field starts, and its name; blank columns have none.
type Fields = Vec<(usize, String)>;

/// The letter of a bucket.
pub fn letter(bucket: &[u8]) -> char {
    bucket[LETTER] as char
}

fn number(bucket: &[u8], start: usize, width: usize) -> usize {
    std::str::from_utf8(&bucket[start..start + width]).unwrap().trim().parse().unwrap()
}

/// A line or bucket, its fields one below the other: columns, text, name.
fn drawn(bytes: &[u8], fields: &Fields) -> String {
    let newline = bytes.len() - 1;
    assert_eq!(bytes[newline], b'\n');
    let ends = fields.iter().skip(1).map(|field| field.0).chain([newline]);
    let mut text = String::new();
    for ((start, name), end) in fields.iter().zip(ends) {
        let content = std::str::from_utf8(&bytes[*start..end]).unwrap();
        let content = match &name[..] {
            "" => format!("{} blanks", content.len()),
            _ => format!("\"{content}\""),
        };
        let columns = match end - start {
            1 => format!("{start:>3}"),
            _ => format!("{start:>3} to {:>3}", end - 1),
        };
        let _ = writeln!(text, "{}", format!("{columns:<12}{content:<14}{name}").trim_end());
    }
    text + &format!("{newline:>3}         newline\n")
}

pub fn drawn_line(line: &[u8]) -> String {
    drawn(line, &line_fields(0, ""))
}

pub fn drawn_bucket(bucket: &[u8]) -> String {
    let mut fields: Fields = HEAD.map(|(start, name)| (start, name.to_string())).to_vec();
    let (pairs, count) = (number(bucket, PAIR_COUNT, 2), number(bucket, COUNT, 2));
    if letter(bucket) == 'I' {
        fields.push((COUNT, "number of entries".into()));
        fields.extend(pointer_fields(PAIRS, pairs, "pair"));
        fields.extend(pointer_fields(ENTRIES, count, "entry"));
    } else {
        fields.push((COUNT, "number of lines".into()));
        for i in 0..count {
            fields.extend(line_fields(LINES + FIGURES * i, &format!("line {i}, ")));
        }
        fields.push((LINES + FIGURES * count, String::new()));
    }
    drawn(bucket, &fields)
}

fn line_fields(start: usize, of: &str) -> Fields {
    let names = [(0, "tag"), (TAG, "tare"), (16, "material code"), (20, "weighing number")];
    names.map(|(column, name)| (start + column, format!("{of}{name}"))).to_vec()
}

/// Pairs or entries, and the blanks behind them.
fn pointer_fields(start: usize, count: usize, name: &str) -> Fields {
    let mut fields = Fields::new();
    for i in 0..count {
        let pointer = start + POINTER * i;
        fields.push((pointer, format!("{name} {}, tag", i + 1)));
        fields.push((pointer + TAG, format!("{name} {}, distance", i + 1)));
    }
    fields.push((start + POINTER * count, String::new()));
    fields
}

/// Each bucket's text on a line, the blanks at its end left out; above, where
/// the fields of an index bucket start.
pub fn cycle(image: &[u8]) -> String {
    let mut starts: Vec<usize> = HEAD.iter().map(|field| field.0).chain([COUNT]).collect();
    for pointers in [pointer_fields(PAIRS, 2, ""), pointer_fields(ENTRIES, 2, "")] {
        starts.extend(pointers.iter().map(|field| field.0));
    }
    let end = starts.pop().unwrap();
    let mark = |column| if starts.contains(&column) { '|' } else { ' ' };
    let mut text: String = (0..end).map(mark).collect::<String>().trim_end().to_string() + "\n";
    for bucket in image.chunks(BUCKET) {
        let _ = writeln!(text, "{}", std::str::from_utf8(bucket).unwrap().trim_end());
    }
    text
}

/// The tags of each bucket, level by level: the entries of one lead to the
/// buckets of the next.
pub fn tree(image: &[u8]) -> String {
    let mut text = String::new();
    let mut positions = vec![0];
    for level in 1.. {
        let buckets: Vec<&[u8]> = positions.iter().map(|&place| bucket(image, place)).collect();
        let shown: Vec<String> = buckets.iter().map(|bucket| tags(bucket).join(" ")).collect();
        if letter(buckets[0]) == 'D' {
            return text + &format!("data      {}\n", shown.join(" | "));
        }
        let _ = writeln!(text, "level {level}   {}", shown.join(" | "));
        let children = |(&position, bucket): (&u64, &&[u8])| {
            let bucket = *bucket;
            let distances = pointers(bucket).map(|start| number(bucket, start + TAG, 6) as u64);
            distances.map(|distance| position + distance).collect::<Vec<u64>>()
        };
        positions = positions.iter().zip(&buckets).flat_map(children).collect();
    }
    text
}

/// Where the entries of an index bucket start, or the lines of a data bucket.
fn pointers(bucket: &[u8]) -> impl Iterator<Item = usize> {
    let (start, width) = match letter(bucket) {
        'I' => (ENTRIES, POINTER),
        _ => (LINES, FIGURES),
    };
    (0..number(bucket, COUNT, 2)).map(move |i| start + width * i)
}

fn tags(bucket: &[u8]) -> Vec<String> {
    pointers(bucket).map(|start| number(bucket, start, TAG).to_string()).collect()
}
