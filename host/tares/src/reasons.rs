//! Why each number refuses, and the remedy.

use pansdaoh::{Answer, Refusal, Settings, BUCKET, LINE, MAX_BUCKETS, MAX_LINES};

use crate::bucket::Bucket;
use crate::columns::{list_number, quoted, Figure, FIGURES};
use crate::hearing::{Heard, Hearing};
use crate::lists::{lines, printed, text, Line};
use crate::misprint;
use crate::pointers::{awaited, came};
use crate::search::{readable, Wanted};
use crate::settings::{settings_text, settings_texts};
use crate::shape::{image_faults, list_faults};
use crate::sizes::Sizes;

/// How many lines are told.
const TOLD: usize = 10;

/// 1
pub fn out_of_range(Settings { n, p, layout, .. }: Settings) -> Vec<String> {
    let ranges = [("n", n, 2, 8), ("p", p, 1, 8), ("layout", layout, 1, 2)];
    let wrong = ranges.iter().filter(|(_, given, least, most)| given < least || given > most);
    wrong
        .map(|(name, given, least, most)| format!("{name} {given} is outside {least} to {most}"))
        .collect()
}

/// 2
pub fn list_length(list: &[u8]) -> Vec<String> {
    let mut details = vec![length(list, LINE, MAX_LINES)];
    if list.len() <= LINE * MAX_LINES {
        details.extend(list_faults(list));
    }
    details
}

/// 3
pub fn misprinted_line(list: &[u8], place: usize) -> Vec<String> {
    let line = list.chunks(LINE).nth(place).unwrap_or_default();
    let reason = misprint::line(line).unwrap_or("misprinted".to_string());
    let mut details = vec![format!("{}: {reason}", line_name(place)), quoted(line)];
    details.extend(list_faults(list));
    details
}

/// 4
pub fn falling_tag(list: &[u8], place: usize) -> Vec<String> {
    let tag =
        |place: usize| list_number(list.get(LINE * place..)?.get(FIGURES[0].columns.clone())?);
    let before = place.saturating_sub(1);
    let mut details = Vec::new();
    if let (Some(earlier), Some(tag)) = (tag(before), tag(place)) {
        details.push(format!(
            "{}: tag {tag} is below tag {earlier} of line {place}",
            line_name(place)
        ));
    }
    details.push("sort the list by tag, equal tags in the order they have".to_string());
    details
}

/// A line as an editor counts it, and its place in document 01.
fn line_name(place: usize) -> String {
    format!("line {} (place {place})", place + 1)
}

/// 2 of a line that is given by its numbers, which make it too long.
pub fn given_length(line: Line) -> Vec<String> {
    let length = printed(&[line]).len();
    let whose = format!("it is the line given that is too long, with {length} bytes, not the list");
    [vec![whose], given_line(line)].concat()
}

/// 3 of such a line.
pub fn given_line(line: Line) -> Vec<String> {
    let over = FIGURES.iter().zip(line).filter(|(figure, number)| *number > figure.most);
    over.map(|(Figure { name, most, .. }, number)| {
        format!("the line given: {name} {number} is over {most}")
    })
    .collect()
}

/// 15: the lines of the tag that are there, the first ones if they are many.
pub fn not_in_list(list: &[u8], line: Line) -> Vec<String> {
    let lines = lines(list);
    let of_tag = lines.iter().zip(1..).filter(|(other, _)| other[0] == line[0]);
    let mut details = vec![
        format!("no line has {}", text(&line)),
        format!("lines of tag {}: {}", line[0], of_tag.clone().count()),
    ];
    let named = |(line, number): (&Line, u64)| format!("line {number}: {}", text(line));
    details.extend(of_tag.take(TOLD).map(named));
    details
}

/// 5
pub fn copies(lines: u64, Settings { n, p, layout, copies }: Settings) -> Vec<String> {
    let Ok(sizes) = Sizes::new(lines, n, p) else {
        return Vec::new();
    };
    let (least, most) = sizes.copies(layout);
    let Sizes { data, levels, .. } = sizes;
    let why = match layout {
        1 => format!("{lines} lines make k = {levels} index levels; r is at most k - 1, and at most 4"),
        _ => format!("{lines} lines make D = {data} data buckets (k = {levels}); m is at most D, and at least 1"),
    };
    vec![format!("copies {copies} is outside {least} to {most} here: {why}")]
}

/// 6, to which only layout 2 comes.
pub fn too_long(lines: u64, settings: Settings) -> Vec<String> {
    let Ok(sizes) = Sizes::new(lines, settings.n, settings.p) else {
        return Vec::new();
    };
    let buckets = sizes.data + settings.copies * sizes.tree;
    let with = settings_text(settings);
    let mut details = vec![format!("{lines} lines with {with} would make N = {buckets} buckets")];
    let fits = |&copies: &u64| pansdaoh::size(lines, Settings { copies, ..settings }, 0).is_ok();
    let most = (1..settings.copies).rfind(fits);
    details.extend(most.map(|most| format!("it fits with --copies {most} at most")));
    details
}

/// 11
pub fn image_length(image: &[u8]) -> Vec<String> {
    let mut details = vec![length(image, BUCKET, MAX_BUCKETS)];
    if image.len() <= BUCKET * MAX_BUCKETS {
        details.extend(image_faults(image));
    }
    details
}

/// 13
pub fn no_list(image: &[u8], settings: Settings) -> Vec<String> {
    let buckets = image.len() / BUCKET;
    let mut details = vec![format!("{}, {buckets} buckets", settings_text(settings))];
    let others = readable(image, &Wanted::default());
    let texts = settings_texts(&others);
    details.extend(texts.iter().map(|other| format!("it reads back with {other}")));
    if others.is_empty() {
        let misprint = |place: usize| {
            let misprint = misprint::misprinted(Bucket::at(image, place))?;
            Some(format!("bucket {place} is {misprint}"))
        };
        details.extend((0..buckets).find_map(misprint));
        let check = "tares check LIST IMAGE tells where it differs from a list's cycle";
        details.push(check.to_string());
    }
    details
}

/// 12
pub fn late(image: &[u8], tune_in: u64) -> Vec<String> {
    let last = image.len() / BUCKET - 1;
    vec![format!("tune-in {tune_in}, and the last bucket is {last}")]
}

/// 8 to 10 in a lookup: the bucket just heard, and the way there.
pub fn unheard(number: u64, image: &[u8], tag: u64, tune_in: u64, lost: &[usize]) -> Vec<String> {
    let mut details = vec![format!("tag {tag}, tune-in {tune_in}")];
    let way: Vec<Heard> = Hearing::with_lost(image, tag, tune_in as usize, lost).collect();
    let refused = |last: &&Heard| last.answer == Answer::Refused(Refusal { number, place: 0 });
    let Some(last) = way.last().filter(refused) else {
        return details;
    };
    let bucket = Bucket(last.bucket);
    match number {
        8 => details.extend(misprint::bucket(bucket)),
        9 => {
            let before = way.iter().nth_back(1);
            let awaited = before.and_then(|before| awaited(tag, before));
            details.extend(awaited.map(|text| format!("awaited: {text}")));
            details.extend(came(bucket).map(|text| format!("came: {text}")));
        }
        _ => {
            let tuned = way.iter().rfind(|heard| heard.tune_in && !heard.lost);
            details.extend(tuned.and_then(|tuned| too_far(bucket, Bucket(tuned.bucket))));
        }
    }
    details.push(format!("bucket {}: {}", last.place, quoted(last.bucket)));
    details
}

/// 10
fn too_far(bucket: Bucket, tuned: Bucket) -> Option<String> {
    let (position, old, new) = (tuned.position()?, tuned.cycle()?, bucket.cycle()?);
    let most = (old + new).checked_sub(position)?;
    Some(format!(
        "tuned in at position {position} of N {old}, and N is {new} in the next cycle: \
         at most {most} buckets go by, and the pointer leads past them"
    ))
}

/// The length of a list or image, of which one byte more than the most is read.
fn length(bytes: &[u8], size: usize, most: usize) -> String {
    let length = bytes.len();
    if length > size * most {
        return format!("more than {} = {most} x {size} bytes", size * most);
    }
    format!("{length} = {} x {size} + {} bytes", length / size, length % size)
}
