//! The differences between a list's cycle and an image in words, by bucket and field.

use pansdaoh::BUCKET;

use crate::align::{place_in, Difference};
use crate::bucket::{Bucket, Field, Kind, HEAD};
use crate::columns::{quoted, shown};
use crate::misprint;
use crate::segments::{title, Segments};

/// A list's cycle and the image held against it.
pub struct Compared<'a> {
    cycle: &'a [u8],
    image: &'a [u8],
    segments: Segments,
    /// By bucket: the list's lines in the buckets before it.
    lines_before: Vec<usize>,
}

impl Compared<'_> {
    pub fn new<'a>(cycle: &'a [u8], image: &'a [u8]) -> Compared<'a> {
        let mut lines = 0;
        let lines_before = cycle.chunks_exact(BUCKET).map(Bucket).map(|bucket| {
            let before = lines;
            lines += if bucket.is_data() { bucket.count().unwrap_or(0) } else { 0 };
            before
        });
        let lines_before = lines_before.collect();
        Compared { cycle, image, segments: Segments::of(cycle), lines_before }
    }

    /// A difference, a text for each field.
    pub fn texts(&self, difference: Difference) -> Vec<String> {
        match difference {
            Difference::Missing { due } => vec![format!("{} is missing", self.title(due))],
            Difference::Surplus { found } => vec![self.surplus(found)],
            Difference::Altered { due, found } => self.altered(due, found),
        }
    }

    fn title(&self, due: usize) -> String {
        title(due, Bucket::at(self.cycle, due), &self.segments)
    }

    fn surplus(&self, found: usize) -> String {
        let bucket = Bucket::at(self.image, found);
        match place_in(self.cycle, bucket.0) {
            Some(place) => {
                format!("bucket {found} of the image is surplus: the cycle's bucket {place} again")
            }
            None => format!("bucket {found} of the image is surplus"),
        }
    }

    fn altered(&self, due: usize, found: usize) -> Vec<String> {
        let mut title = self.title(due);
        if found != due {
            title += &format!(", bucket {found} of the image");
        }
        let (expected, bucket) = (Bucket::at(self.cycle, due), Bucket::at(self.image, found));
        if let Some(place) = place_in(self.cycle, bucket.0) {
            return vec![format!("{title}: the cycle's bucket {place} stands in its place")];
        }
        let mut texts = Vec::new();
        if let Some(misprint) = misprint::misprinted(bucket) {
            texts.push(format!("{title} is {misprint}"));
        }
        texts.extend(self.fields(due, bucket).iter().map(|text| format!("{title}, {text}")));
        if texts.is_empty() {
            // What differs is told even if no field shows it.
            texts.push(format!("{title}: expected {}", quoted(expected.0)));
            texts.push(format!("{title}: found {}", quoted(bucket.0)));
        }
        texts
    }

    /// The fields in which the bucket found differs from the one due.
    fn fields(&self, due: usize, found: Bucket) -> Vec<String> {
        let expected = Bucket::at(self.cycle, due);
        let mut texts = Vec::new();
        for field in expected.fields().into_iter().map(|field| field.narrowed(found)) {
            let (wanted, columns) = (expected.columns(&field), found.columns(&field));
            if wanted == columns {
                continue;
            }
            if field.columns.start >= HEAD && expected.kind() != found.kind() {
                // Fields of another kind of bucket do not compare.
                texts.push(format!(
                    "columns {HEAD} to 239: not those of {} bucket",
                    expected.article()
                ));
                break;
            }
            let (name, wanted, columns) = (self.name(due, &field), shown(wanted), shown(columns));
            texts.push(format!("{name}: expected {wanted}, found {columns}"));
        }
        texts
    }

    /// A field of the cycle's bucket; a line also by its place in the list.
    fn name(&self, due: usize, field: &Field) -> String {
        match field.kind {
            Kind::Figure(line, figure) => {
                let of_list = self.lines_before[due] + line + 1;
                format!("line {} (line {of_list} of the list) {}", line + 1, figure.name)
            }
            _ => field.name(Bucket::at(self.cycle, due).is_index()),
        }
    }
}
