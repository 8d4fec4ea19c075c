//! The table against plain lookups from every tune-in.

use std::time::Duration;

use pansdaoh::{Looked, Refusal};
use reference::generate::{line, list, Random};
use reference::yards::{damaged_cycle, image_of, legal_settings};

use crate::run::{within, Folder, Run};

fn row(tune_in: u64, looked: Looked) -> String {
    let (heard, elapsed, lines) = (looked.heard, looked.elapsed, looked.lines);
    format!("{tune_in:>6}{heard:>6}{elapsed:>6}{lines:>6}")
}

/// The table by one lookup for each tune-in, or the first refusal.
fn plain(image: &[u8], tag: u64) -> Result<String, (u64, Refusal)> {
    let mut lines = vec![0; image.len()];
    let mut table = String::new();
    for tune_in in 0..(image.len() / 240) as u64 {
        let looked = pansdaoh::lookup(image, tag, tune_in, &mut lines);
        table += &row(tune_in, looked.map_err(|refusal| (tune_in, refusal))?);
        table += "\n";
    }
    Ok(table)
}

/// Compares a run with plain lookups; whether they are refused.
fn compare(run: Run, image: &[u8], tag: u64) -> bool {
    match plain(image, tag) {
        Ok(table) => {
            assert_eq!(run.done(), table);
            false
        }
        Err((tune_in, Refusal { number, place })) => {
            let text = run.refused();
            assert!(
                text.starts_with(&format!("tares: refused by {number}, place {place}: ")),
                "{text}"
            );
            assert!(text.contains(&format!("\n  tag {tag}, tune-in {tune_in}\n")), "{text}");
            true
        }
    }
}

#[test]
fn intact_images() {
    let folder = Folder::new("table_intact_images");
    let mut random = Random::new(5);
    for lines in [0, 1, 2, 5, 8, 17, 60, 300] {
        for spread in [0, 1, 3] {
            let list = list(&mut random, lines, spread);
            let image = image_of(&list, legal_settings(&mut random, lines));
            folder.write("image", &image);
            let last = spread * lines;
            for tag in [0, 1, last / 3, last / 2, u64::MAX] {
                assert!(!compare(folder.tares(&format!("table image {tag}")), &image, tag));
            }
        }
    }
}

#[test]
fn damaged_images() {
    let folder = Folder::new("table_damaged_images");
    let mut random = Random::new(6);
    let mut refused = [0; 2];
    for round in 0..400 {
        let image = damaged_cycle(&mut random, 2 + round % 20, 3);
        if image.is_empty() {
            continue;
        }
        folder.write("image", &image);
        let tag = random.below(6);
        let run = folder.tares(&format!("table image {tag}"));
        refused[compare(run, &image, tag) as usize] += 1;
    }
    assert!(refused[0] > 60 && refused[1] > 60, "{refused:?}");
}

/// Two cycles in one image. In the first, bucket 0 leads tag 9 to bucket 8, and that to the next
/// cycle's start. Those who tune in there come by it to the second cycle and end; who tunes in late
/// in the second comes to bucket 8 past a start, and is refused.
#[test]
fn same_buckets_in_both_cycles() {
    let folder = Folder::sample_yard("table_same_buckets_in_both_cycles");
    let mut image = folder.read("image");
    let second = image.clone();
    image[119..125].copy_from_slice(b"     8");
    image[240 * 8 + 119..240 * 8 + 125].copy_from_slice(b"     4");
    image.extend(second);
    folder.write("image", &image);
    assert_eq!(plain(&image, 9), Err((20, Refusal { number: 10, place: 8 })));
    assert!(compare(folder.tares("table image 9"), &image, 9));
}

/// A follow-on that leads to a bucket without the tag: absent, with no lines.
#[test]
fn absent_behind_lines() {
    let folder = Folder::sample_yard("table_absent_behind_lines");
    let mut image = folder.read("image");
    image[240 * 6 + 38] = b'6';
    folder.write("image", &image);
    let table = folder.tares("table image 5").done();
    assert!(table.lines().all(|row| row.ends_with("     0")), "{table}");
    assert_eq!(Ok(table), plain(&image, 5));
}

/// Entries that lead to the next cycle's start, or nearly: some tags meet the limit on the cycle
/// after tune-in's.
#[test]
fn limit_of_two_cycles() {
    let folder = Folder::new("table_limit_of_two_cycles");
    let mut random = Random::new(8);
    let mut refused = 0;
    for _ in 0..300 {
        let lines = 2 + random.below(10);
        let list = list(&mut random, lines, 1);
        let mut image = image_of(&list, legal_settings(&mut random, lines));
        let buckets = (image.len() / 240) as u64;
        let index = |bucket: &(u64, &mut [u8])| bucket.1[24] == b'I';
        for (place, bucket) in (0..).zip(image.chunks_mut(240)).filter(index) {
            let at = 103 + 16 * random.below(2) as usize;
            if bucket[at + 5] != b' ' {
                let to_cycle = buckets - place;
                let distance = format!("{:>6}", to_cycle - random.below(to_cycle.min(2)));
                bucket[at..at + 6].copy_from_slice(distance.as_bytes());
            }
        }
        folder.write("image", &image);
        let tag = random.below(lines);
        refused += compare(folder.tares(&format!("table image {tag}")), &image, tag) as u64;
    }
    assert!(refused > 30 && refused < 300, "{refused}");
}

/// A tag with 5,000 lines at N 62,868.
#[test]
fn many_lines_of_a_tag() {
    let folder = Folder::new("table_many_lines_of_a_tag");
    let tag = |i: u64| if (20_000..25_000).contains(&i) { 20_000 } else { i };
    let list: String = (0..40_000).map(|i| line(tag(i), i, 1, i)).collect();
    let image = image_of(list.as_bytes(), [8, 1, 2, 4]);
    assert_eq!(image.len(), 240 * 62_868);
    folder.write("image", &image);
    let mut table = String::new();
    assert!(within(Duration::from_millis(500), || table = folder.tares("table image 20000").done()));
    assert_eq!(table.lines().count(), 62_868);
    let mut lines = vec![0; image.len()];
    for (tune_in, told) in (0..).zip(table.lines()).step_by(1_571) {
        let looked = pansdaoh::lookup(&image, 20_000, tune_in, &mut lines).unwrap();
        assert_eq!((told, looked.lines), (&*row(tune_in, looked), 5_000));
    }
}
