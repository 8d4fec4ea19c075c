//! A list made from a CSV file.

use pansdaoh::MAX_LINES;

use crate::columns::FIGURES;
use crate::lists::{printed, Line};
use crate::shape::is_utf_16;

pub struct Imported {
    pub list: Vec<u8>,
    /// The lines that could not be taken, each with its reason.
    pub left: Vec<String>,
}

/// Other names of the figures in a header line.
const NAMES: [&[&str]; 4] = [
    &["tag"],
    &["tare", "tare kg", "tare in kg", "tare (kg)"],
    &["material", "material code"],
    &["weighing number", "weighing", "weighing no", "weighing no."],
];

/// The list of a CSV file, or why there is none.
pub fn import(csv: &[u8]) -> Result<Imported, String> {
    if is_utf_16(csv) {
        return Err("the file is UTF-16: save it as CSV in UTF-8".to_string());
    }
    let text = String::from_utf8_lossy(csv.strip_prefix(b"\xef\xbb\xbf").unwrap_or(csv));
    let lines = text.lines().enumerate().map(|(place, line)| (place + 1, line));
    let mut lines = lines.filter(|(_, line)| !line.trim().is_empty());
    let (_, header) = lines.next().ok_or("no header line")?;
    let separator = separator(header);
    let columns = columns(&fields(header, separator))?;
    let mut taken: Vec<Line> = Vec::new();
    let mut left = Vec::new();
    for (number, line) in lines {
        match figures(&fields(line, separator), &columns) {
            Ok(figures) => taken.push(figures),
            Err(reason) => left.push(format!("line {number} not taken: {reason}: {line}")),
        }
    }
    if taken.len() > MAX_LINES {
        return Err(format!("{} lines, and a list has at most {MAX_LINES}", taken.len()));
    }
    // A stable sort: "equal tags keep list order".
    taken.sort_by_key(|figures| figures[0]);
    Ok(Imported { list: printed(&taken), left })
}

/// The separator that the header line has most of.
fn separator(header: &str) -> char {
    let count = |separator: &char| header.matches(*separator).count();
    [',', ';', '\t'].into_iter().rev().max_by_key(count).unwrap_or(',')
}

/// The fields of a line; in quotes a separator stands for itself and two quotes for one.
fn fields(line: &str, separator: char) -> Vec<String> {
    let mut fields = vec![String::new()];
    let mut in_quotes = false;
    let mut characters = line.chars().peekable();
    while let Some(character) = characters.next() {
        let last = fields.len() - 1;
        if character == '"' && in_quotes && characters.next_if_eq(&'"').is_some() {
            fields[last].push('"');
        } else if character == '"' {
            in_quotes = !in_quotes;
        } else if character == separator && !in_quotes {
            fields.push(String::new());
        } else {
            fields[last].push(character);
        }
    }
    fields.iter().map(|field| field.trim().to_string()).collect()
}

/// Which field of a line each figure is.
fn columns(header: &[String]) -> Result<[usize; 4], String> {
    let header: Vec<String> =
        header.iter().map(|name| name.to_lowercase().replace('_', " ")).collect();
    let mut columns = [0; 4];
    for ((names, column), figure) in NAMES.iter().zip(&mut columns).zip(&FIGURES) {
        let mut found = (0..header.len()).filter(|&i| names.contains(&&*header[i]));
        let name = names[0];
        *column = found.next().ok_or(format!(
            "the header line has no column {name}: it names the columns tag, tare, material, weighing number"
        ))?;
        if found.next().is_some() {
            return Err(format!("the header line has two columns for the {}", figure.name));
        }
    }
    Ok(columns)
}

/// The four figures of a line, or why it cannot be taken.
fn figures(fields: &[String], columns: &[usize; 4]) -> Result<Line, String> {
    let mut figures = [0; 4];
    for ((value, &column), figure) in figures.iter_mut().zip(columns).zip(&FIGURES) {
        let (name, most) = (figure.name, figure.most);
        let field = fields.get(column).ok_or(format!("{name} is missing"))?;
        if field.is_empty() {
            return Err(format!("{name} is blank"));
        }
        if !field.bytes().all(|byte| byte.is_ascii_digit()) {
            return Err(format!("{name} \"{field}\" is no whole number"));
        }
        *value =
            field.parse().ok().filter(|&number| number <= most).ok_or_else(|| {
                format!("{name} {} is over {most}", field.trim_start_matches('0'))
            })?;
    }
    Ok(figures)
}
