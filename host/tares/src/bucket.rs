//! "A bucket": its fields, for messages. Every column belongs to one field.

use std::ops::Range;

use pansdaoh::BUCKET;

use crate::columns::{number, Figure, FIGURES};

pub const POSITION: Range<usize> = 0..6;
pub const TO_CYCLE: Range<usize> = 6..12;
pub const TO_SEGMENT: Range<usize> = 12..18;
pub const FOLLOW_ON: Range<usize> = 18..24;
const LETTER: usize = 24;
const PAIR_COUNT: Range<usize> = 25..27;
const COUNT: Range<usize> = 27..29;
/// Columns of the fields that every bucket has.
pub const HEAD: usize = 29;
const PAIRS: usize = HEAD;
const ENTRIES: usize = 93;
const LINES: usize = HEAD;
const NEWLINE: usize = 239;

/// Columns of a tag, of a control pair or entry, and of a line.
const TAG: usize = 10;
const POINTER: usize = 16;
pub const LINE: usize = 26;

pub const MAX_PAIRS: usize = 4;
pub const MAX_COUNT: usize = 8;

/// What a field holds.
#[derive(Clone, Copy)]
pub enum Kind {
    Position,
    ToCycle,
    ToSegment,
    FollowOn,
    Letter,
    PairCount,
    /// Of entries or lines.
    Count,
    /// A pair's tag; the first pair's may be blank.
    PairTag(usize),
    PairDistance(usize),
    EntryTag(usize),
    EntryDistance(usize),
    Figure(usize, &'static Figure),
    /// "unused columns blank".
    Unused,
    /// Columns whose use is unknown where letter or counts are wrong.
    Unknown,
    Newline,
}

pub struct Field {
    pub kind: Kind,
    pub columns: Range<usize>,
}

/// 240 bytes of any content.
#[derive(Clone, Copy)]
pub struct Bucket<'a>(pub &'a [u8]);

impl<'a> Bucket<'a> {
    /// The bucket at a place of an image.
    pub fn at(image: &'a [u8], place: usize) -> Bucket<'a> {
        Bucket(&image[BUCKET * place..][..BUCKET])
    }

    /// The columns of a field.
    pub fn columns(self, field: &Field) -> &'a [u8] {
        &self.0[field.columns.clone()]
    }

    pub fn number(self, columns: Range<usize>) -> Option<u64> {
        number(&self.0[columns])
    }

    pub fn position(self) -> Option<u64> {
        self.number(POSITION)
    }

    /// N: "the position plus the second".
    pub fn cycle(self) -> Option<u64> {
        Some(self.position()? + self.number(TO_CYCLE)?)
    }

    pub fn is_index(self) -> bool {
        self.0[LETTER] == b'I'
    }

    pub fn is_data(self) -> bool {
        self.0[LETTER] == b'D'
    }

    pub fn kind(self) -> &'static str {
        match self.0[LETTER] {
            b'I' => "index",
            b'D' => "data",
            _ => "letter unknown",
        }
    }

    /// The kind with its article.
    pub fn article(self) -> &'static str {
        match self.0[LETTER] {
            b'I' => "an index",
            b'D' => "a data",
            _ => "an unknown",
        }
    }

    /// How many control pairs, at most 4.
    pub fn pairs(self) -> Option<usize> {
        self.number(PAIR_COUNT).map(|count| count as usize).filter(|&count| count <= MAX_PAIRS)
    }

    /// How many entries or lines, at most 8.
    pub fn count(self) -> Option<usize> {
        self.number(COUNT).map(|count| count as usize).filter(|&count| count <= MAX_COUNT)
    }

    /// Pair i, from 0: its tag, if printed, and its distance.
    pub fn pair(self, i: usize) -> (Option<u64>, Option<u64>) {
        self.pointer(PAIRS + POINTER * i)
    }

    /// Entry i, from 0.
    pub fn entry(self, i: usize) -> (Option<u64>, Option<u64>) {
        self.pointer(ENTRIES + POINTER * i)
    }

    fn pointer(self, at: usize) -> (Option<u64>, Option<u64>) {
        (self.number(at..at + TAG), self.number(at + TAG..at + POINTER))
    }

    /// The columns of line i, from 0.
    pub fn line(self, i: usize) -> &'a [u8] {
        &self.0[LINES + LINE * i..][..LINE]
    }

    /// Whether an entry or a line has this tag.
    pub fn has_tag(self, tag: u64) -> bool {
        let own = |i: usize| match self.is_index() {
            true => self.entry(i).0,
            false => number(&self.line(i)[..TAG]),
        };
        (0..self.count().unwrap_or(0)).any(|i| own(i) == Some(tag))
    }

    /// Whether the library takes it for misprinted: the reading of a line is refused by 8 alone.
    pub fn is_misprinted(self) -> bool {
        pansdaoh::line(self.0, 0).is_err()
    }

    /// All its fields, from the first column to the last.
    pub fn fields(self) -> Vec<Field> {
        let mut fields = vec![
            Field { kind: Kind::Position, columns: POSITION },
            Field { kind: Kind::ToCycle, columns: TO_CYCLE },
            Field { kind: Kind::ToSegment, columns: TO_SEGMENT },
            Field { kind: Kind::FollowOn, columns: FOLLOW_ON },
            Field { kind: Kind::Letter, columns: LETTER..LETTER + 1 },
            Field { kind: Kind::PairCount, columns: PAIR_COUNT },
            Field { kind: Kind::Count, columns: COUNT },
        ];
        match (self.0[LETTER], self.pairs(), self.count()) {
            (b'I', Some(pairs), Some(entries)) => {
                add_pointers(&mut fields, PAIRS, pairs, Kind::PairTag, Kind::PairDistance);
                add_unused(&mut fields, ENTRIES);
                add_pointers(&mut fields, ENTRIES, entries, Kind::EntryTag, Kind::EntryDistance);
                add_unused(&mut fields, NEWLINE);
            }
            (b'D', _, Some(lines)) => {
                for line in 0..lines {
                    fields.extend(FIGURES.iter().map(|figure| line_field(line, figure)));
                }
                add_unused(&mut fields, NEWLINE);
            }
            _ => fields.push(Field { kind: Kind::Unknown, columns: HEAD..NEWLINE }),
        }
        fields.push(Field { kind: Kind::Newline, columns: NEWLINE..BUCKET });
        fields
    }
}

fn add_pointers(
    fields: &mut Vec<Field>,
    start: usize,
    count: usize,
    tag: impl Fn(usize) -> Kind,
    distance: impl Fn(usize) -> Kind,
) {
    for i in 0..count {
        let at = start + POINTER * i;
        fields.push(Field { kind: tag(i), columns: at..at + TAG });
        fields.push(Field { kind: distance(i), columns: at + TAG..at + POINTER });
    }
}

fn line_field(line: usize, figure: &'static Figure) -> Field {
    let start = LINES + LINE * line;
    let columns = start + figure.columns.start..start + figure.columns.end;
    Field { kind: Kind::Figure(line, figure), columns }
}

/// The columns up to `end` that no field has.
fn add_unused(fields: &mut Vec<Field>, end: usize) {
    let start = fields.last().map_or(0, |field| field.columns.end);
    if start < end {
        fields.push(Field { kind: Kind::Unused, columns: start..end });
    }
}

impl Field {
    /// Of unused columns those from the first to the last that are not blank.
    pub fn narrowed(self, bucket: Bucket) -> Field {
        let columns = bucket.columns(&self);
        let used = |byte: &u8| *byte != b' ';
        match (self.kind, columns.iter().position(used), columns.iter().rposition(used)) {
            (Kind::Unused, Some(first), Some(last)) => {
                let start = self.columns.start;
                Field { kind: self.kind, columns: start + first..start + last + 1 }
            }
            _ => self,
        }
    }

    /// Its name; pairs, entries and lines count from 1.
    pub fn name(&self, index: bool) -> String {
        match self.kind {
            Kind::Position => "position".to_string(),
            Kind::ToCycle => "distance to the next cycle".to_string(),
            Kind::ToSegment => "distance to the next index segment".to_string(),
            Kind::FollowOn => "follow-on".to_string(),
            Kind::Letter => "letter".to_string(),
            Kind::PairCount => "number of control pairs".to_string(),
            Kind::Count if index => "number of entries".to_string(),
            Kind::Count => "number of lines".to_string(),
            Kind::PairTag(i) => format!("pair {} tag", i + 1),
            Kind::PairDistance(i) => format!("pair {} distance", i + 1),
            Kind::EntryTag(i) => format!("entry {} tag", i + 1),
            Kind::EntryDistance(i) => format!("entry {} distance", i + 1),
            Kind::Figure(line, figure) => format!("line {} {}", line + 1, figure.name),
            Kind::Unused => format!("unused {}", self.columns_text()),
            Kind::Unknown => self.columns_text(),
            Kind::Newline => "newline".to_string(),
        }
    }

    fn columns_text(&self) -> String {
        match (self.columns.start, self.columns.end - 1) {
            (first, last) if first == last => format!("column {first}"),
            (first, last) => format!("columns {first} to {last}"),
        }
    }
}
