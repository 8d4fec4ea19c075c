//! An image held against the cycle of a list. The verdict is the library's: the
//! list is built and the bytes compared, or the image read back. The rest are words.

use pansdaoh::{Settings, BUCKET, LINE};

use crate::align::{differences, Difference};
use crate::bucket::{Bucket, Kind, TO_CYCLE};
use crate::differences::Compared;
use crate::lists::differing_lines;
use crate::refusals::{refused, refused_image, refused_list, Given};
use crate::room::{image_room, list_room};
use crate::search::{fitting, nearest, possible, readable, Wanted};
use crate::settings::settings_texts;
use crate::words::counts;
use crate::Failure;

/// How many lines or buckets are told, and how many fields of a bucket, unless all are asked for.
const TOLD: usize = 10;
const FIELDS: usize = 6;

/// What is said of a cycle that is right but for such distances.
const UNCAPPED: &str = "all that differs is distances that lead past the next cycle's start, \
                        as in cycles built before version 0.2 of the library: build it anew";

pub struct Verdict {
    pub right: bool,
    pub text: String,
}

/// What is compared, and whether to tell every difference.
#[derive(Clone, Copy)]
pub struct Check<'a> {
    pub list: &'a [u8],
    pub image: &'a [u8],
    pub all: bool,
}

impl Check<'_> {
    pub fn verdict(self, wanted: &Wanted) -> Result<Verdict, Failure> {
        refused_image(self.image)?;
        match wanted.settings() {
            Some(settings) => self.with(settings),
            None => self.sought(wanted),
        }
    }

    fn with(self, settings: Settings) -> Result<Verdict, Failure> {
        let Check { list, image, .. } = self;
        let cycle = built(list, settings)?;
        if cycle == image {
            return Ok(self.right(&[settings]));
        }
        Ok(wrong(self.wrong(&cycle, settings)))
    }

    /// Settings that are not given are sought.
    fn sought(self, wanted: &Wanted) -> Result<Verdict, Failure> {
        let Check { list, image, .. } = self;
        refused_list(list)?;
        let (lines, buckets) = (list.len() / LINE, image.len() / BUCKET);
        let fits = self.fitting(wanted);
        if !fits.is_empty() {
            return Ok(self.right(&fits));
        }
        let others = readable(image, wanted);
        let mut text = vec!["no settings fit".to_string()];
        if let Some(&settings) = others.first() {
            text.push(fit_text("another list builds this image", &others));
            match built(list, settings) {
                Ok(cycle) => text.extend(self.wrong(&cycle, settings)),
                Err(_) => text.extend(self.other_list(settings)),
            }
        } else if let Some(settings) = nearest(list, image, wanted) {
            text.push(fit_text("the nearest cycle of this list is that", &[settings]));
            text.extend(self.wrong(&built(list, settings)?, settings));
        } else {
            text.push(format!("none make {buckets} buckets of {lines} lines"));
            text.extend(self.other_settings());
        }
        Ok(wrong(text))
    }

    /// The settings with which the image is this list's cycle.
    fn fitting(self, wanted: &Wanted) -> Vec<Settings> {
        let (lines, buckets) = (self.list.len() / LINE, self.image.len() / BUCKET);
        fitting(self.list, self.image, possible(lines as u64, buckets as u64, wanted))
    }

    fn right(self, settings: &[Settings]) -> Verdict {
        let (lines, buckets) = (self.list.len() / LINE, self.image.len() / BUCKET);
        let text = format!(
            "right: {}\n{}\n\
             every display that hears it intact and ends in it gets exactly the lines of its tag,\n\
             or is told that there are none, for every tag and from every tune-in (demand 3)\n",
            counts(lines, buckets),
            fit_text("the image is this list's cycle", settings)
        );
        Verdict { right: true, text }
    }

    /// How the image differs from the list's cycle.
    fn wrong(self, cycle: &[u8], settings: Settings) -> Vec<String> {
        let (due, found) = (cycle.len() / BUCKET, self.image.len() / BUCKET);
        let differences = differences(cycle, self.image);
        let mut text = vec![count_text(&differences, due, found)];
        if capped(self.image) == cycle {
            text.push(UNCAPPED.to_string());
        }
        let other_list = self.other_list(settings);
        // Settings that are not those of the image make most buckets differ.
        if other_list.is_empty() && 2 * differences.len() > due {
            text.extend(self.other_settings());
        }
        text.extend(other_list);
        text.extend(self.buckets(cycle, &differences));
        text
    }

    /// The lines that differ, if the image is the right cycle of another list.
    fn other_list(self, settings: Settings) -> Vec<String> {
        let mut other = list_room();
        let Ok(lines) = pansdaoh::read_back(self.image, settings, &mut other) else {
            return Vec::new();
        };
        let texts = differing_lines(self.list, &other[..LINE * lines as usize]);
        let differing = texts.len();
        let mut text = vec![format!(
            "it is the right cycle of another list, of {lines} lines; lines that differ: {differing}"
        )];
        text.extend(self.told(texts, TOLD, "lines"));
        text
    }

    /// Other settings with which the image is this list's cycle.
    fn other_settings(self) -> Option<String> {
        let fits = self.fitting(&Wanted::default());
        (!fits.is_empty()).then(|| fit_text("but the image is this list's cycle", &fits))
    }

    fn buckets(self, cycle: &[u8], differences: &[Difference]) -> Vec<String> {
        let compared = Compared::new(cycle, self.image);
        let most = if self.all { usize::MAX } else { TOLD };
        let mut text = Vec::new();
        let mut left = differences.len();
        for &difference in differences {
            if text.len() >= most {
                text.push(format!("  {}", more(left, "buckets that differ")));
                break;
            }
            text.extend(self.told(compared.texts(difference), FIELDS, "fields of this bucket"));
            left -= 1;
        }
        text
    }

    /// The first texts, or all.
    fn told(self, mut texts: Vec<String>, most: usize, what: &str) -> Vec<String> {
        let left = texts.len().saturating_sub(most);
        if !self.all && left > 0 {
            texts.truncate(most);
            texts.push(more(left, what));
        }
        texts.iter().map(|text| format!("  {text}")).collect()
    }
}

/// The cycle of a list.
fn built(list: &[u8], settings: Settings) -> Result<Vec<u8>, Failure> {
    let mut cycle = image_room();
    let buckets = pansdaoh::build(list, settings, &mut cycle)
        .map_err(|refusal| refused(refusal, Given::List { list, settings }))?;
    cycle.truncate(BUCKET * buckets as usize);
    Ok(cycle)
}

/// The image with the distances that lead past the next cycle's start made those to it. The first
/// pair's was never any other.
fn capped(image: &[u8]) -> Vec<u8> {
    let mut capped = image.to_vec();
    for (place, bytes) in image.chunks_exact(BUCKET).enumerate() {
        let bucket = Bucket(bytes);
        for field in bucket.fields() {
            let pointer = match field.kind {
                Kind::PairDistance(i) if i > 0 => bucket.pair(i),
                Kind::EntryDistance(i) => bucket.entry(i),
                _ => continue,
            };
            if passes_start(image, bucket, pointer) {
                let start = BUCKET * place + field.columns.start;
                capped[start..start + field.columns.len()].copy_from_slice(&bytes[TO_CYCLE]);
            }
        }
    }
    capped
}

/// Whether a pointer leads past the next cycle's start, and there to a bucket with its tag.
fn passes_start(image: &[u8], bucket: Bucket, (tag, distance): (Option<u64>, Option<u64>)) -> bool {
    let (Some(tag), Some(distance), Some(to_cycle)) = (tag, distance, bucket.number(TO_CYCLE))
    else {
        return false;
    };
    let buckets = (image.len() / BUCKET) as u64;
    let reached = distance.checked_sub(to_cycle).filter(|reached| (1..buckets).contains(reached));
    reached.is_some_and(|reached| Bucket::at(image, reached as usize).has_tag(tag))
}

fn wrong(lines: Vec<String>) -> Verdict {
    Verdict { right: false, text: format!("wrong: {}\n", lines.join("\n")) }
}

/// How many buckets differ, and how.
fn count_text(differences: &[Difference], due: usize, found: usize) -> String {
    let count = |kind: fn(&Difference) -> bool| differences.iter().filter(|d| kind(d)).count();
    let altered = count(|difference| matches!(difference, Difference::Altered { .. }));
    let missing = count(|difference| matches!(difference, Difference::Missing { .. }));
    let surplus = count(|difference| matches!(difference, Difference::Surplus { .. }));
    let all = differences.len();
    if all == altered {
        let differ = if all == 1 { "differs" } else { "differ" };
        return format!("{all} of {due} buckets {differ} from this list's cycle");
    }
    let counts = [(altered, "altered"), (missing, "missing"), (surplus, "surplus")];
    let counts = counts.iter().filter(|(count, _)| *count > 0);
    let counts: Vec<String> = counts.map(|(count, what)| format!("{count} {what}")).collect();
    let differ = if all == 1 { "bucket differs" } else { "buckets differ" };
    let counts = counts.join(", ");
    format!("{all} {differ} ({counts}): this list's cycle has {due}, the image {found}")
}

fn more(count: usize, what: &str) -> String {
    format!("more {what}: {count} (--all tells them)")
}

fn fit_text(what: &str, settings: &[Settings]) -> String {
    format!("{what} with {}", settings_texts(settings).join("\n  or with "))
}
