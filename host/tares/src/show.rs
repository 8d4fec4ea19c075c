//! Buckets in words.

use std::cmp::Ordering;
use std::fmt::Write;
use std::ops::RangeInclusive;

use pansdaoh::BUCKET;

use crate::bucket::{Bucket, Field, Kind};
use crate::columns::{is_blank, line_text, shown};
use crate::misprint;
use crate::segments::{title, Segments};
use crate::words::counted;

/// A line for each bucket of the image.
pub fn overview(image: &[u8]) -> String {
    let segments = Segments::of(image);
    let mut text = String::new();
    for place in 0..image.len() / BUCKET {
        let bucket = Bucket::at(image, place);
        let _ = writeln!(text, "{}: {}", title(place, bucket, &segments), summary(bucket));
    }
    text
}

fn summary(bucket: Bucket) -> String {
    if let Some(misprint) = misprint::misprinted(bucket) {
        return misprint;
    }
    let count = bucket.count().unwrap_or(0);
    if bucket.is_data() {
        let lines: Vec<String> = (0..count).map(|i| line_text(bucket.line(i))).collect();
        return format!("{}: {}", counted(count, "line"), lines.join("; "));
    }
    let pairs = counted(bucket.pairs().unwrap_or(0), "control pair");
    let tags: Vec<String> =
        (0..count).filter_map(|i| bucket.entry(i).0).map(|tag| tag.to_string()).collect();
    format!("{pairs}, entries {count}: {}", tags.join(", "))
}

/// These buckets of the image, field by field.
pub fn buckets(image: &[u8], places: RangeInclusive<usize>) -> String {
    let segments = Segments::of(image);
    let mut text = String::new();
    for place in places {
        let bucket = Bucket::at(image, place);
        let misprinted =
            misprint::misprinted(bucket).map_or(String::new(), |text| format!(", {text}"));
        let _ = writeln!(text, "{}{misprinted}", title(place, bucket, &segments));
        for field in bucket.fields().into_iter().map(|field| field.narrowed(bucket)) {
            if let Some(value) = value(bucket, &field) {
                let columns = match (field.columns.start, field.columns.end - 1) {
                    (first, last) if first == last => first.to_string(),
                    (first, last) => format!("{first}-{last}"),
                };
                let name = field.name(bucket.is_index());
                let _ = writeln!(text, "  {columns:>7}  {name}: {value}");
            }
        }
    }
    text
}

/// What a field says; unused columns and the newline nothing, if they are as they should be.
fn value(bucket: Bucket, field: &Field) -> Option<String> {
    let columns = bucket.columns(field);
    let value = shown(columns);
    let number = bucket.number(field.columns.clone());
    let note = match field.kind {
        Kind::Unused if is_blank(columns) => return None,
        Kind::Newline if columns == b"\n" => return None,
        Kind::ToCycle => bucket.cycle().map(|cycle| format!("N is {cycle}")),
        Kind::FollowOn if number == Some(0) => Some("none".to_string()),
        Kind::ToSegment | Kind::FollowOn | Kind::PairDistance(_) | Kind::EntryDistance(_) => {
            number.and_then(|distance| target(bucket, distance))
        }
        Kind::Letter => Some(bucket.kind().to_string()),
        Kind::PairTag(0) if is_blank(columns) => {
            Some("no line was sent earlier in this cycle".to_string())
        }
        Kind::PairTag(0) => Some("the last one sent earlier in this cycle".to_string()),
        Kind::PairTag(i) => Some(format!("the largest under the path's level {} bucket", i + 1)),
        Kind::EntryTag(_) => Some("the largest below it".to_string()),
        Kind::Figure(_, figure) if figure.name == "tare" => Some("kg".to_string()),
        _ => None,
    };
    Some(note.map_or(value.clone(), |note| format!("{value}, {note}")))
}

/// Where a distance leads.
fn target(bucket: Bucket, distance: u64) -> Option<String> {
    let (position, cycle) = (bucket.position()?, bucket.cycle()?);
    let reached = position + distance;
    Some(match reached.cmp(&cycle) {
        Ordering::Less => format!("to bucket {reached}"),
        Ordering::Equal => "to bucket 0 of the next cycle".to_string(),
        Ordering::Greater => "past the next cycle's start".to_string(),
    })
}
