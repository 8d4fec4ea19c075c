//! Settings sought for an image. Which are worth a try, sizes say; which fit,
//! the library's calls.

use pansdaoh::{Settings, BUCKET, LINE};

use crate::align::place_in;
use crate::bucket::Bucket;
use crate::progress::Progress;
use crate::room::{image_room, list_room};
use crate::sizes::Sizes;

/// Settings of which some are given.
#[derive(Clone, Copy, Default)]
pub struct Wanted {
    pub n: Option<u64>,
    pub p: Option<u64>,
    pub layout: Option<u64>,
    pub copies: Option<u64>,
}

impl Wanted {
    /// The settings, if all are given.
    pub fn settings(&self) -> Option<Settings> {
        Some(Settings { n: self.n?, p: self.p?, layout: self.layout?, copies: self.copies? })
    }

    fn allows(&self, settings: &Settings) -> bool {
        let allows = |wanted: Option<u64>, given: u64| wanted.is_none_or(|wanted| wanted == given);
        allows(self.n, settings.n)
            && allows(self.p, settings.p)
            && allows(self.layout, settings.layout)
            && allows(self.copies, settings.copies)
    }
}

/// The settings with which so many lines make so many buckets.
pub fn possible(lines: u64, buckets: u64, wanted: &Wanted) -> Vec<Settings> {
    let mut possible = Vec::new();
    for (n, p) in (2..=8).flat_map(|n| (1..=8).map(move |p| (n, p))) {
        let Ok(sizes) = Sizes::new(lines, n, p) else {
            continue;
        };
        let (least, most) = sizes.copies(1);
        let distributed = (least..=most).map(|copies| Settings { n, p, layout: 1, copies });
        // With more parts a cycle is longer, so one number of parts may fit.
        let parts = buckets.saturating_sub(sizes.data) / sizes.tree;
        let settings = distributed.chain([Settings { n, p, layout: 2, copies: parts }]);
        let fits = |&settings: &Settings| {
            pansdaoh::size(lines, settings, 0).is_ok_and(|size| size.n == buckets)
        };
        possible.extend(settings.filter(|settings| fits(settings) && wanted.allows(settings)));
    }
    possible
}

/// Of these settings those with which the list builds the image.
pub fn fitting(list: &[u8], image: &[u8], settings: Vec<Settings>) -> Vec<Settings> {
    let mut built = image_room();
    let fits = |&settings: &Settings| {
        let buckets = pansdaoh::build(list, settings, &mut built);
        buckets.is_ok_and(|buckets| built[..BUCKET * buckets as usize] == *image)
    };
    tried(settings, fits)
}

/// The settings with which some list builds the image.
pub fn readable(image: &[u8], wanted: &Wanted) -> Vec<Settings> {
    let buckets = image.chunks_exact(BUCKET);
    let data = buckets.clone().filter(|bucket| Bucket(bucket).is_data()).count() as u64;
    let last = buckets.last().and_then(|bucket| Bucket(bucket).count()).unwrap_or(0) as u64;
    let mut settings = Vec::new();
    for p in 1..=8 {
        // "only the last data bucket may be part full"
        let lines = if data == 0 { 0 } else { (data - 1) * p + last };
        let possible = possible(lines, (image.len() / BUCKET) as u64, wanted);
        settings.extend(possible.into_iter().filter(|settings| settings.p == p));
    }
    let mut room = list_room();
    let fits = |&settings: &Settings| pansdaoh::read_back(image, settings, &mut room).is_ok();
    tried(settings, fits)
}

/// Of the settings with which the list makes an image of this size, or of the size that its buckets
/// print, those whose cycle is nearest to it.
pub fn nearest(list: &[u8], image: &[u8], wanted: &Wanted) -> Option<Settings> {
    let lines = (list.len() / LINE) as u64;
    let mut settings = possible(lines, (image.len() / BUCKET) as u64, wanted);
    settings.extend(printed_cycle(image).into_iter().flat_map(|n| possible(lines, n, wanted)));
    let mut progress = Progress::new("settings", settings.len());
    let mut built = image_room();
    let mut best = None;
    for (done, settings) in settings.into_iter().enumerate() {
        progress.at(done);
        let Ok(buckets) = pansdaoh::build(list, settings, &mut built) else {
            continue;
        };
        let alike = alike(&built[..BUCKET * buckets as usize], image);
        if best.is_none_or(|(most, _)| alike > most) {
            best = Some((alike, settings));
        }
    }
    best.map(|(_, settings)| settings)
}

/// Buckets that stand as they should at the position they print, then bytes alike place by place.
fn alike(built: &[u8], image: &[u8]) -> (usize, usize) {
    let in_cycle = |bucket: &&[u8]| place_in(built, bucket).is_some();
    let buckets = image.chunks_exact(BUCKET).filter(in_cycle).count();
    let bytes = built.iter().zip(image).filter(|(a, b)| a == b).count();
    (buckets, bytes)
}

/// The N that most buckets print.
fn printed_cycle(image: &[u8]) -> Option<u64> {
    let buckets = image.chunks_exact(BUCKET);
    let mut printed: Vec<u64> = buckets.filter_map(|bucket| Bucket(bucket).cycle()).collect();
    printed.sort();
    let runs = printed.chunk_by(|a, b| a == b);
    runs.max_by_key(|run| run.len()).map(|run| run[0])
}

fn tried(settings: Vec<Settings>, mut fits: impl FnMut(&Settings) -> bool) -> Vec<Settings> {
    let mut progress = Progress::new("settings", settings.len());
    let mut fitting = Vec::new();
    for (done, settings) in settings.into_iter().enumerate() {
        progress.at(done);
        if fits(&settings) {
            fitting.push(settings);
        }
    }
    fitting
}
