//! Why a line or bucket that the library takes for misprinted is: the first
//! rule of document 01 that it breaks.

use pansdaoh::{LINE, MAX_BUCKETS};

use crate::bucket::{Bucket, Field, Kind, FOLLOW_ON, MAX_COUNT, MAX_PAIRS, TO_CYCLE};
use crate::columns::{is_blank, list_number, number, quoted, FIGURES};

/// "Printed numbers", and at most `most`.
fn figure(name: &str, columns: &[u8], most: u64) -> Option<String> {
    if number(columns) != list_number(columns) {
        return Some(format!("{name} {} has a leading zero", quoted(columns)));
    }
    list_figure(name, columns, most)
}

/// The same in a list line, which may have leading zeros.
fn list_figure(name: &str, columns: &[u8], most: u64) -> Option<String> {
    let text = columns.trim_ascii();
    let shown = quoted(columns);
    if is_blank(columns) {
        return Some(format!("{name} is blank"));
    }
    if let Some(&byte) = columns.iter().find(|&&byte| byte != b' ' && !byte.is_ascii_digit()) {
        return Some(format!("{name} {shown} has {}, which is no digit", quoted(&[byte])));
    }
    if text.contains(&b' ') {
        return Some(format!("{name} {shown} has a blank among its digits"));
    }
    if columns.ends_with(b" ") {
        return Some(format!("{name} {shown} is not right-justified"));
    }
    let over = list_number(columns).filter(|&number| number > most)?;
    Some(format!("{name} {over} is over {most}"))
}

/// A list line.
pub fn line(line: &[u8]) -> Option<String> {
    if line.len() != LINE {
        return Some(format!("{} bytes where {LINE} are due", line.len()));
    }
    let figures = FIGURES.iter();
    let mut reasons = figures.filter_map(|f| list_figure(f.name, &line[f.columns.clone()], f.most));
    let newline = || (line[LINE - 1] != b'\n').then(|| "no newline behind it".to_string());
    reasons.next().or_else(newline)
}

/// Whether the library takes a bucket for misprinted, and why.
pub fn misprinted(bytes: Bucket) -> Option<String> {
    let reason = bytes.is_misprinted().then(|| bucket(bytes))?;
    Some(reason.map_or("misprinted".to_string(), |reason| format!("misprinted: {reason}")))
}

/// A bucket.
pub fn bucket(bucket: Bucket) -> Option<String> {
    let fields: Vec<Field> =
        bucket.fields().into_iter().map(|field| field.narrowed(bucket)).collect();
    let reason = fields.iter().find_map(|field| field_reason(bucket, field));
    reason.or_else(|| falling(bucket, &fields))
}

fn field_reason(bucket: Bucket, field: &Field) -> Option<String> {
    let columns = bucket.columns(field);
    let name = field.name(bucket.is_index());
    let figure = |most: usize| figure(&name, columns, most as u64);
    match field.kind {
        Kind::Position => figure(MAX_BUCKETS),
        Kind::ToCycle => distance(&name, columns, MAX_BUCKETS as u64).or_else(|| over(bucket)),
        Kind::ToSegment | Kind::PairDistance(_) | Kind::EntryDistance(_) => {
            let to_cycle = bucket.number(TO_CYCLE)?;
            distance(&name, columns, to_cycle).map(|reason| match number(columns) {
                Some(1..) => format!("{reason}, the distance to the next cycle"),
                _ => reason,
            })
        }
        Kind::FollowOn => figure(MAX_BUCKETS).or_else(|| follow_on(bucket)),
        Kind::Letter if bucket.is_index() || bucket.is_data() => None,
        Kind::Letter => Some(format!("letter {} is neither I nor D", quoted(columns))),
        Kind::PairCount if bucket.is_data() && number(columns).is_some_and(|pairs| pairs > 0) => {
            Some("control pairs in a data bucket".to_string())
        }
        Kind::PairCount => figure(MAX_PAIRS),
        Kind::Count if bucket.is_data() && number(columns) == Some(0) => {
            Some("a data bucket without lines".to_string())
        }
        Kind::Count => figure(MAX_COUNT),
        Kind::PairTag(0) if is_blank(columns) => None,
        Kind::PairTag(_) | Kind::EntryTag(_) => figure(FIGURES[0].most as usize),
        Kind::Figure(_, of_line) => figure(of_line.most as usize),
        Kind::Unused if !is_blank(columns) => {
            Some(format!("{name} not blank: {}", quoted(columns)))
        }
        Kind::Newline if columns != b"\n" => {
            Some(format!("{} in column 239 where the newline is due", quoted(columns)))
        }
        Kind::Unused | Kind::Unknown | Kind::Newline => None,
    }
}

/// A distance is at least 1, and at most `most`.
fn distance(name: &str, columns: &[u8], most: u64) -> Option<String> {
    if number(columns) == Some(0) {
        return Some(format!("{name} is 0"));
    }
    figure(name, columns, most)
}

/// "The position plus the second is N, at most 99,999."
fn over(bucket: Bucket) -> Option<String> {
    let cycle = bucket.cycle().filter(|&cycle| cycle > MAX_BUCKETS as u64)?;
    Some(format!("position and distance to the next cycle make {cycle}, over {MAX_BUCKETS}"))
}

/// "The follow-on is 0 in an index bucket"; else "it is below the distance to the next cycle".
fn follow_on(bucket: Bucket) -> Option<String> {
    let (follow_on, to_cycle) = (bucket.number(FOLLOW_ON)?, bucket.number(TO_CYCLE)?);
    if bucket.is_index() && follow_on > 0 {
        return Some(format!("follow-on {follow_on} in an index bucket"));
    }
    (bucket.is_data() && follow_on >= to_cycle).then(|| {
        format!("follow-on {follow_on} is not below the distance to the next cycle, {to_cycle}")
    })
}

/// "Entry tags never fall." "Tags never fall."
fn falling(bucket: Bucket, fields: &[Field]) -> Option<String> {
    let mut last: Option<(u64, &Field)> = None;
    for field in fields {
        let is_tag = match field.kind {
            Kind::EntryTag(_) => true,
            Kind::Figure(_, figure) => figure.name == FIGURES[0].name,
            _ => false,
        };
        let Some(tag) = bucket.number(field.columns.clone()).filter(|_| is_tag) else {
            continue;
        };
        if let Some((before, earlier)) = last.filter(|&(before, _)| tag < before) {
            let (name, earlier) = (field.name(true), earlier.name(true));
            return Some(format!("{name} {tag} is below {earlier} {before}"));
        }
        last = Some((tag, field));
    }
    None
}
