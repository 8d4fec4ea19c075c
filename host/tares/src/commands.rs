//! The commands.

use std::ops::RangeInclusive;

use pansdaoh::{Looked, Settings, BUCKET, LINE};

use crate::args::Command;
use crate::changes::Change;
use crate::check::Check;
use crate::files::{tell, write_both, File, Said};
use crate::import::import;
use crate::lists::{different_tags, differing_lines, Line};
use crate::refusals::{refused, refused_image, refused_list, refused_tune_in, Given};
use crate::room::{image_room, list_room, MAX_IMAGE, MAX_LIST};
use crate::search::Wanted;
use crate::words::{counted, counts};
use crate::{follow, plans, show, table, Failure, Status};

/// The longest CSV file that is read.
const MAX_CSV: usize = 1 << 26;

pub fn run(command: Command) -> Result<Status, Failure> {
    match command {
        Command::Print(text) => File::Standard.write(text.as_bytes())?,
        Command::Check { list, image, wanted, all } => return check(&list, &image, &wanted, all),
        Command::Build { list, image, settings } => build(&list, &image, settings)?,
        Command::Read { image, out, settings, force } => read(&image, &out, settings, force)?,
        Command::Import { csv, list } => return import_list(&csv, &list),
        Command::Change { change, list, image, line, settings } => {
            change_list(change, &list, &image, line, settings)?
        }
        Command::Size { lines, settings, c } => print_size(lines, settings, c)?,
        Command::Sizes { lines, n, p, c } => print_sizes(lines, n, p, c)?,
        Command::Mean { list, settings } => print_mean(&list, settings)?,
        Command::Means { list, n, p, given } => print_means(&list, n, p, given)?,
        Command::Lookup { image, tag, tune_in, out } => lookup(&image, tag, tune_in, out)?,
        Command::Table { image, tag } => print_table(&image, tag)?,
        Command::Follow { image, tag, tune_in, lost } => print_way(&image, tag, tune_in, &lost)?,
        Command::Show { image, buckets } => print_buckets(&image, buckets)?,
    }
    Ok(Status::Done)
}

fn check(list: &File, image: &File, wanted: &Wanted, all: bool) -> Result<Status, Failure> {
    let (list, image) = (list.read(MAX_LIST)?, image.read(MAX_IMAGE)?);
    let verdict = Check { list: &list, image: &image, all }.verdict(wanted)?;
    warn_if_empty(&list);
    File::Standard.write(verdict.text.as_bytes())?;
    Ok(if verdict.right { Status::Done } else { Status::Wrong })
}

fn build(list: &File, image: &File, settings: Settings) -> Result<(), Failure> {
    let write = || {
        let list = list.read(MAX_LIST)?;
        let mut out = image_room();
        let buckets = pansdaoh::build(&list, settings, &mut out)
            .map_err(|refusal| refused(refusal, Given::List { list: &list, settings }))?;
        image.write(&out[..BUCKET * buckets as usize])?;
        Ok((list, buckets as usize))
    };
    // No change comes between the list that is read and the image that is written.
    let (list, buckets) = if image.can_be_replaced() { list.alone(write)? } else { write()? };
    warn_if_empty(&list);
    report(&[image], &(counts(list.len() / LINE, buckets) + "\n"))
}

fn read(image: &File, out: &File, settings: Settings, force: bool) -> Result<(), Failure> {
    let image = &image.read(MAX_IMAGE)?;
    let mut list = list_room();
    let lines = pansdaoh::read_back(image, settings, &mut list)
        .map_err(|refusal| refused(refusal, Given::Image { image, settings }))?;
    list.truncate(LINE * lines as usize);
    out.alone(|| {
        if !force {
            keep_if_different(out, &list)?;
        }
        out.write(&list)
    })?;
    warn_if_empty(&list);
    report(&[out], &(counts(lines as usize, image.len() / BUCKET) + "\n"))
}

/// A list that is there and differs is not replaced unasked.
fn keep_if_different(out: &File, list: &[u8]) -> Result<(), Failure> {
    let File::Named(path) = out else {
        return Ok(());
    };
    if !path.is_file() {
        return Ok(());
    }
    let kept = out.read(MAX_LIST)?;
    if kept == list {
        return Ok(());
    }
    let differing = match refused_list(&kept) {
        Ok(()) => match differing_lines(&kept, list).len() {
            0 => "lines that differ: 0, leading zeros aside".to_string(),
            count => format!("lines that differ: {count}"),
        },
        Err(_) => "it is no list".to_string(),
    };
    let name = path.display();
    Err(Failure::WrongUse(format!(
        "{name} is there and differs, and is kept: {differing}\n\
         --force replaces it; tares check {name} IMAGE tells what differs"
    )))
}

fn import_list(csv: &File, list: &File) -> Result<Status, Failure> {
    let bytes = csv.read(MAX_CSV)?;
    if bytes.len() > MAX_CSV {
        return Err(Failure::Refused(format!("not imported: more than {MAX_CSV} bytes")));
    }
    let imported =
        import(&bytes).map_err(|reason| Failure::Refused(format!("not imported: {reason}")))?;
    refused_list(&imported.list)?;
    list.alone(|| list.write(&imported.list))?;
    for line in &imported.left {
        tell(&format!("tares: {line}\n"));
    }
    warn_if_empty(&imported.list);
    let mut text = counted(imported.list.len() / LINE, "line");
    if !imported.left.is_empty() {
        text += &format!(", {} not taken", imported.left.len());
    }
    report(&[list], &(text + "\n"))?;
    Ok(if imported.left.is_empty() { Status::Done } else { Status::Wrong })
}

/// What is said of a list and its cycle where a change is cut short.
const CHANGED: Said = Said {
    first: "the image is written already, and the list is as it was: the same command once more changes both",
    both: "the list and its image are changed",
};

/// Changes a list and its cycle.
fn change_list(
    change: Change,
    list: &File,
    image: &File,
    line: Line,
    settings: Settings,
) -> Result<(), Failure> {
    if list.is(image) {
        return Err(Failure::WrongUse("LIST and IMAGE are one file".to_string()));
    }
    if matches!(list, File::Named(_)) && !list.can_be_replaced() {
        let text = "LIST is changed, so it is a file, or - to go from standard input to output";
        return Err(Failure::WrongUse(text.to_string()));
    }
    let changed = list.alone(|| {
        let changed = change.make(&list.read(MAX_LIST)?, line, settings)?;
        write_both((image, &changed.image), (list, &changed.list), CHANGED)?;
        Ok(changed)
    })?;
    warn_if_empty(&changed.list);
    report(&[list, image], &changed.text).map_err(|failure| failure.and(CHANGED.both))
}

fn print_size(lines: u64, settings: Settings, c: u64) -> Result<(), Failure> {
    let size = pansdaoh::size(lines, settings, c)
        .map_err(|refusal| refused(refusal, Given::Lines { lines, settings }))?;
    File::Standard.write(plans::size_text(size, c).as_bytes())
}

fn print_sizes(lines: u64, n: u64, p: u64, c: u64) -> Result<(), Failure> {
    let sizes = plans::compared(n, p, None, |settings| pansdaoh::size(lines, settings, c))
        .map_err(|(settings, refusal)| refused(refusal, Given::Lines { lines, settings }))?;
    File::Standard.write(plans::size_table(&sizes).as_bytes())
}

fn print_mean(list: &File, settings: Settings) -> Result<(), Failure> {
    let list = &list.read(MAX_LIST)?;
    let mean = pansdaoh::mean(list, settings)
        .map_err(|refusal| refused(refusal, Given::List { list, settings }))?;
    File::Standard.write(plans::mean_text(mean, different_tags(list)).as_bytes())
}

fn print_means(list: &File, n: u64, p: u64, given: Option<Settings>) -> Result<(), Failure> {
    let list = &list.read(MAX_LIST)?;
    let means = plans::compared(n, p, given, |settings| pansdaoh::mean(list, settings))
        .map_err(|(settings, refusal)| refused(refusal, Given::List { list, settings }))?;
    File::Standard.write(plans::mean_table(&means).as_bytes())
}

fn lookup(image: &File, tag: u64, tune_in: u64, out: Option<File>) -> Result<(), Failure> {
    let image = &image.read(MAX_IMAGE)?;
    let (text, lines) = looked(image, tag, tune_in)?;
    match out {
        Some(out) => {
            out.write(&lines)?;
            report(&[&out], &text)
        }
        None => File::Standard.write(&[text.as_bytes(), &lines].concat()),
    }
}

/// A lookup's report and its lines.
fn looked(image: &[u8], tag: u64, tune_in: u64) -> Result<(String, Vec<u8>), Failure> {
    // Each data bucket is heard once at most, and its lines are shorter than it.
    let mut lines = vec![0; image.len()];
    let looked = pansdaoh::lookup(image, tag, tune_in, &mut lines)
        .map_err(|refusal| refused(refusal, Given::Lookup { image, tag, tune_in, lost: &[] }))?;
    lines.truncate(LINE * looked.lines as usize);
    Ok((end_text(looked) + "\n", lines))
}

fn end_text(Looked { found, heard, elapsed, lines }: Looked) -> String {
    let end = if found { "found" } else { "absent" };
    format!("{end}, heard {heard}, elapsed {elapsed}, lines {lines}")
}

fn print_table(image: &File, tag: u64) -> Result<(), Failure> {
    let image = &image.read(MAX_IMAGE)?;
    let table = table::table(image, tag).map_err(|(tune_in, refusal)| {
        refused(refusal, Given::Lookup { image, tag, tune_in, lost: &[] })
    })?;
    File::Standard.write(table.as_bytes())
}

fn print_way(image: &File, tag: u64, tune_in: u64, lost: &[u64]) -> Result<(), Failure> {
    let image = &image.read(MAX_IMAGE)?;
    refused_tune_in(image, tune_in)?;
    let last = (image.len() / BUCKET - 1) as u64;
    if let Some(&beyond) = lost.iter().find(|&&place| place > last) {
        return Err(no_bucket(beyond, last));
    }
    let lost: &Vec<usize> = &lost.iter().map(|&place| place as usize).collect();
    let way = follow::way(image, tag, tune_in, lost);
    File::Standard.write(way.text.as_bytes())?;
    let looked =
        way.end.map_err(|refusal| refused(refusal, Given::Lookup { image, tag, tune_in, lost }))?;
    let losses = if lost.is_empty() { String::new() } else { format!(", lost {}", way.lost) };
    warn_of_losses(lost, way.not_lost);
    File::Standard.write(format!("{}{losses}\n", end_text(looked)).as_bytes())
}

/// Buckets that were to be lost more often than the display woke for them.
fn warn_of_losses(lost: &[usize], mut not_lost: Vec<usize>) {
    not_lost.sort();
    for places in not_lost.chunk_by(|one, other| one == other) {
        let (place, named) = (places[0], lost.iter().filter(|&&lost| lost == places[0]).count());
        let (times, again) = match named - places.len() {
            0 => ("not lost".to_string(), ""),
            times => (format!("lost {times} of {named} times"), " again"),
        };
        tell(&format!(
            "tares: warning: bucket {place} was {times}: the display did not wake for it{again}\n"
        ));
    }
}

fn no_bucket(place: u64, last: u64) -> Failure {
    Failure::WrongUse(format!("no bucket {place}: the last one is {last}"))
}

fn print_buckets(image: &File, places: Option<RangeInclusive<u64>>) -> Result<(), Failure> {
    let image = &image.read(MAX_IMAGE)?;
    refused_image(image)?;
    let last = (image.len() / BUCKET - 1) as u64;
    let text = match places.map(RangeInclusive::into_inner) {
        None => show::overview(image),
        Some((_, to)) if to > last => return Err(no_bucket(to, last)),
        Some((from, to)) => show::buckets(image, from as usize..=to as usize),
    };
    File::Standard.write(text.as_bytes())
}

/// An empty list is allowed, but hardly ever meant.
fn warn_if_empty(list: &[u8]) {
    if list.is_empty() {
        tell("tares: warning: the list is empty, so every tag is absent\n");
    }
}

/// Prints what a call returned: to standard output, unless one of its files went there.
fn report(files: &[&File], text: &str) -> Result<(), Failure> {
    if files.iter().any(|file| matches!(file, File::Standard)) {
        tell(text);
        return Ok(());
    }
    File::Standard.write(text.as_bytes())
}
