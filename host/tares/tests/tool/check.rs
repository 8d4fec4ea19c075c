//! An image held against a list: right, or wrong by bucket and field.

use std::collections::BTreeSet;

use reference::generate::{damaged_image, full_of_zeros, line, list, list_of, Random};
use reference::yards::{image_of, legal_settings};

use crate::run::{Folder, R1};

const RIGHT: &str = "\
every display that hears it intact and ends in it gets exactly the lines of its tag,
or is told that there are none, for every tag and from every tune-in (demand 3)
";

#[test]
fn right() {
    let folder = Folder::sample_yard("check_right");
    let right =
        format!("right: 5 lines, 12 buckets\nthe image is this list's cycle with {R1}\n{RIGHT}");
    assert_eq!(folder.tares(&format!("check list image {R1}")).done(), right);
    assert_eq!(folder.tares("check list image").done(), right);
    let list = folder.read("list");
    assert_eq!(folder.tares_given(&format!("check - image {R1}"), &list).done(), right);
}

/// The columns of a bucket: the name, start and width of each field.
fn fields(bucket: &[u8]) -> Vec<(String, usize, usize)> {
    let count = |at: usize| (bucket[at] - b'0') as usize;
    let mut fields: Vec<(String, usize, usize)> = vec![];
    let mut add = |name: String, at: usize, width: usize| fields.push((name, at, width));
    add("position".to_string(), 0, 6);
    add("distance to the next cycle".to_string(), 6, 6);
    add("distance to the next index segment".to_string(), 12, 6);
    add("follow-on".to_string(), 18, 6);
    add("letter".to_string(), 24, 1);
    add("number of control pairs".to_string(), 25, 2);
    if bucket[24] == b'D' {
        add("number of lines".to_string(), 27, 2);
        for i in 0..count(28) {
            let figures = [
                ("tag", 0, 10),
                ("tare", 10, 6),
                ("material code", 16, 4),
                ("weighing number", 20, 6),
            ];
            for (name, at, width) in figures {
                add(format!("line {} {name}", i + 1), 29 + 26 * i + at, width);
            }
        }
    } else {
        add("number of entries".to_string(), 27, 2);
        for (name, start, count) in [("pair", 29, count(26)), ("entry", 93, count(28))] {
            for i in 0..count {
                add(format!("{name} {} tag", i + 1), start + 16 * i, 10);
                add(format!("{name} {} distance", i + 1), start + 16 * i + 10, 6);
            }
        }
    }
    add("unused column 238".to_string(), 238, 1);
    add("newline".to_string(), 239, 1);
    fields
}

/// Columns as a message shows them.
fn shown(columns: &[u8]) -> String {
    match std::str::from_utf8(columns).unwrap() {
        "\n" => "\"\\n\"".to_string(),
        columns if columns.trim().is_empty() => "blank".to_string(),
        columns => columns.trim().to_string(),
    }
}

/// Another byte: a digit one above, the other letter, or a digit where none was.
fn other(byte: u8) -> u8 {
    match byte {
        b'9' => b'8',
        b'0'..=b'8' => byte + 1,
        b'I' => b'D',
        b'D' => b'I',
        _ => b'7',
    }
}

/// A bucket of an image as a message names it.
struct Named<'a> {
    bucket: &'a [u8],
    /// With its letter and segment.
    title: String,
    /// The list's lines in the buckets before it.
    lines_before: usize,
}

fn named(image: &[u8]) -> Vec<Named<'_>> {
    let (mut segment, mut next, mut lines_before) = (0, number(&image[12..18]), 0);
    let mut all = Vec::new();
    for (place, bucket) in image.chunks(240).enumerate() {
        if place == next {
            segment += 1;
            next = place + number(&bucket[12..18]);
        }
        let kind = if bucket[24] == b'I' { "index" } else { "data" };
        let title = format!("bucket {place} ({kind}, segment {segment})");
        all.push(Named { bucket, title, lines_before });
        lines_before += if kind == "data" { number(&bucket[27..29]) } else { 0 };
    }
    all
}

/// One altered digit in each field of each bucket is told by bucket and field,
/// and nothing else is; for both layouts, with path buckets on three levels.
#[test]
fn every_field() {
    let folder = Folder::new("check_every_field");
    let list = list(&mut Random::new(7), 11, 1);
    folder.write("list", &list);
    let mut kinds = BTreeSet::new();
    for [n, p, layout, copies] in [[2, 1, 1, 3], [2, 2, 2, 2]] {
        let image = image_of(&list, [n, p, layout, copies]);
        let words = format!("check list image --n {n} --p {p} --layout {layout} --copies {copies}");
        for (place, named) in named(&image).iter().enumerate() {
            for (name, at, width) in fields(named.bucket) {
                let columns = 240 * place + at..240 * place + at + width;
                let mut altered = image.clone();
                let last = columns.end - 1;
                altered[last] = other(altered[last]);
                folder.write("image", &altered);
                let text = folder.tares(&words).wrong_image();
                let (expected, found) = (shown(&image[columns.clone()]), shown(&altered[columns]));
                let told = told_name(&name, named.lines_before);
                let line =
                    format!("  {}, {told}: expected {expected}, found {found}\n", named.title);
                let first = format!("wrong: 1 of {} buckets differs from", image.len() / 240);
                assert!(text.starts_with(&first) && text.contains(&line), "{line}{text}");
                let told = text.lines().filter(|line| line.starts_with("  bucket ")).count();
                let misprinted = text.matches(" is misprinted: ").count();
                assert_eq!(told, 1 + misprinted, "{text}");
                kinds.insert(name.replace(|c: char| c.is_ascii_digit(), "#"));
            }
        }
    }
    assert_eq!(kinds.len(), 18, "{kinds:?}");
}

/// An altered byte in any column is told by its field.
#[test]
fn every_column() {
    let folder = Folder::new("check_every_column");
    let list = list(&mut Random::new(8), 11, 1);
    folder.write("list", &list);
    let image = image_of(&list, [2, 2, 1, 2]);
    let named = named(&image);
    for column in 0..240 {
        // Another bucket for each column, in an order that meets them all.
        let place = 7 * column % named.len();
        let Named { bucket, title, lines_before } = &named[place];
        let mut altered = image.clone();
        altered[240 * place + column] = other(altered[240 * place + column]);
        folder.write("image", &altered);
        let text = folder.tares("check list image --n 2 --p 2 --layout 1 --copies 2").wrong_image();
        let mut fields = fields(bucket).into_iter();
        let field = fields.find(|(_, at, width)| (*at..at + width).contains(&column));
        let name = field.map_or(format!("unused column {column}"), |(name, _, _)| name);
        let told = format!("\n  {title}, {}: expected ", told_name(&name, *lines_before));
        assert!(text.contains(&told), "{told}{text}");
    }
}

/// Whatever the damage, an image is right exactly if it is the list's cycle,
/// and a wrong one is told by at least one bucket.
#[test]
fn damaged_images() {
    let folder = Folder::new("check_damaged_images");
    let mut random = Random::new(9);
    let mut wrong = 0;
    for _ in 0..150 {
        let lines = 1 + random.below(20);
        let list = list(&mut random, lines, 2);
        let settings = legal_settings(&mut random, lines);
        let image = image_of(&list, settings);
        let damaged = damaged_image(&mut random, &image);
        if damaged.is_empty() {
            continue;
        }
        folder.write("list", &list);
        folder.write("image", &damaged);
        let [n, p, layout, copies] = settings;
        let words = format!("check list image --n {n} --p {p} --layout {layout} --copies {copies}");
        if damaged == image {
            assert!(folder.tares(&words).done().starts_with("right: "));
            continue;
        }
        wrong += 1;
        let text = folder.tares(&format!("{words} --all")).wrong_image();
        assert!(text.starts_with("wrong: ") && text.contains("\n  bucket "), "{text}");
        assert!(folder
            .tares("check list image")
            .wrong_image()
            .starts_with("wrong: no settings fit\n"));
    }
    assert!(wrong > 100, "{wrong}");
}

fn number(columns: &[u8]) -> usize {
    std::str::from_utf8(columns).unwrap().trim().parse().unwrap()
}

/// A line's figure is told with the line of the list.
fn told_name(name: &str, lines_before: usize) -> String {
    match name.strip_prefix("line ").and_then(|rest| rest.split_once(' ')) {
        Some((line, figure)) => {
            let of_list = lines_before + line.parse::<usize>().unwrap();
            format!("line {line} (line {of_list} of the list) {figure}")
        }
        None => name.to_string(),
    }
}

/// What a check with settings says of an image; what is sought comes to the same.
fn wrong(folder: &Folder, image: &[u8]) -> String {
    folder.write("given", image);
    let text = folder.tares(&format!("check list given {R1}")).wrong_image();
    let sought = folder.tares("check list given").wrong_image();
    let nearest =
        format!("wrong: no settings fit\nthe nearest cycle of this list is that with {R1}\n");
    assert_eq!(sought.strip_prefix(&nearest), text.strip_prefix("wrong: "));
    text
}

#[test]
fn misprinted() {
    let folder = Folder::sample_yard("check_misprinted");
    let mut image = folder.read("image");
    image[240 * 9 + 101] = b'0';
    assert_eq!(
        wrong(&folder, &image),
        "wrong: 1 of 12 buckets differs from this list's cycle\n  \
         bucket 9 (index, segment 1) is misprinted: entry 1 tag \"        09\" has a leading zero\n  \
         bucket 9 (index, segment 1), entry 1 tag: expected 9, found \"        09\"\n"
    );
}

#[test]
fn missing_and_surplus() {
    let folder = Folder::sample_yard("check_missing_and_surplus");
    let image = folder.read("image");
    let part = |from: usize, to: usize| image[240 * from..240 * to].to_vec();
    assert_eq!(
        wrong(&folder, &[part(0, 5), part(6, 12)].concat()),
        "wrong: 1 bucket differs (1 missing): this list's cycle has 12, the image 11\n  \
         bucket 5 (data, segment 0) is missing\n"
    );
    assert_eq!(
        wrong(&folder, &[part(0, 8), part(7, 12)].concat()),
        "wrong: 1 bucket differs (1 surplus): this list's cycle has 12, the image 13\n  \
         bucket 8 of the image is surplus: the cycle's bucket 7 again\n"
    );
    // Bucket 5 is missing and bucket 6 altered.
    let mut both = [part(0, 5), part(6, 12)].concat();
    both[240 * 5 + 44] = b'7';
    assert_eq!(
        wrong(&folder, &both),
        "wrong: 2 buckets differ (1 altered, 1 missing): this list's cycle has 12, the image 11\n  \
         bucket 5 (data, segment 0) is missing\n  \
         bucket 6 (data, segment 0), bucket 5 of the image, line 1 (line 3 of the list) tare: expected 0, found 7\n"
    );
    // Bucket 8 once more in the place of bucket 3, and a strange one behind.
    let strange = [&b"strange"[..], &[b' '; 232], b"\n"].concat();
    assert_eq!(
        wrong(&folder, &[part(0, 3), part(8, 9), part(4, 12), strange].concat()),
        "wrong: 2 buckets differ (1 altered, 1 surplus): this list's cycle has 12, the image 13\n  \
         bucket 3 (index, segment 0): the cycle's bucket 8 stands in its place\n  \
         bucket 12 of the image is surplus\n"
    );
}

/// Cycles with distances that lead past the next cycle's start, to the bucket itself.
#[test]
fn past_the_next_cycle() {
    let uncapped = "all that differs is distances that lead past the next cycle's start, \
                    as in cycles built before version 0.2 of the library: build it anew\n";
    let folder = Folder::sample_yard("check_past_the_next_cycle");
    let list = folder.read("list");
    // Bucket, column and distance of each such entry.
    for (settings, entries) in [
        ([2, 1, 1, 1], &[(8, 103, 5)][..]),
        ([2, 1, 1, 2], &[(5, 103, 10), (9, 103, 5)]),
        ([2, 1, 2, 2], &[(10, 103, 13), (10, 119, 14)]),
    ] {
        let mut image = image_of(&list, settings);
        for &(bucket, column, distance) in entries {
            let distance = format!("{distance:>6}");
            image[240 * bucket + column..][..6].copy_from_slice(distance.as_bytes());
        }
        folder.write("image", &image);
        let text = folder.tares("check list image").wrong_image();
        let count = |what: &str| text.matches(what).count();
        let misprinted = count(", the distance to the next cycle\n");
        assert_eq!((count(uncapped), count(" distance: expected ")), (1, entries.len()), "{text}");
        assert!(misprinted > 0, "{text}");
        // Damage to a distance is no such cycle: to the first pair's, or to where the tag is not.
        for (column, distance) in
            [(39, 99_999), (entries[0].1, 99_999), (entries[0].1, entries[0].2 + 1)]
        {
            let mut damaged = image.clone();
            let distance = format!("{distance:>6}");
            damaged[240 * entries[0].0 + column..][..6].copy_from_slice(distance.as_bytes());
            folder.write("image", &damaged);
            let text = folder.tares("check list image").wrong_image();
            assert!(!text.contains("as in cycles built before"), "{text}");
        }
        // With a wrong tare besides, the tare is what matters.
        let data = image.chunks(240).position(|bucket| bucket[24] == b'D').unwrap();
        image[240 * data + 44] = b'7';
        folder.write("image", &image);
        let text = folder.tares("check list image").wrong_image();
        assert!(!text.contains(uncapped) && text.contains("tare: expected 0, found 7"), "{text}");
    }
}

/// The first differences are told, and with --all every one.
#[test]
fn first_ones_or_all() {
    let folder = Folder::sample_yard("check_first_ones");
    let mut image = folder.read("image");
    for bucket in image.chunks_mut(240) {
        bucket[11] = other(bucket[11]);
    }
    folder.write("image", &image);
    let text = folder.tares(&format!("check list image {R1}")).wrong_image();
    assert!(text.starts_with("wrong: 12 of 12 buckets differ from this list's cycle\n"), "{text}");
    assert_eq!(text.matches("distance to the next cycle: expected").count(), 10);
    assert!(text.ends_with("  more buckets that differ: 2 (--all tells them)\n"), "{text}");
    let text = folder.tares(&format!("check list image {R1} --all")).wrong_image();
    assert_eq!(text.matches("distance to the next cycle: expected").count(), 12);
    assert!(!text.contains("--all"), "{text}");
    // A bucket with other figures throughout.
    let whole = line(1, 1, 1, 1).replace('\n', "");
    image[240 * 4 + 29..240 * 4 + 55].copy_from_slice(whole.as_bytes());
    image[240 * 4..240 * 4 + 24].copy_from_slice(&b"     1".repeat(4));
    folder.write("image", &image);
    let text = folder.tares(&format!("check list image {R1}")).wrong_image();
    assert!(text.contains("  more fields of this bucket: 3 (--all tells them)\n"), "{text}");
    let text = folder.tares(&format!("check list image {R1} --all")).wrong_image();
    assert_eq!(text.matches("bucket 4 (data, segment 0), ").count(), 8);
}

/// The right cycle of another list: the lines that differ.
#[test]
fn another_list() {
    let folder = Folder::new("check_another_list");
    let lines =
        [line(3, 8_000, 1, 1), line(5, 8_100, 2, 2), line(5, 8_200, 3, 3), line(9, 8_300, 4, 4)];
    let supplied =
        [line(3, 8_000, 1, 1), line(5, 8_100, 7, 2), line(5, 8_200, 3, 33), line(8, 1, 2, 3)];
    folder.write("list", lines.concat().as_bytes());
    folder.write("supplied", supplied.concat().as_bytes());
    let settings = "--n 2 --p 1 --layout 2 --copies 2";
    folder.tares(&format!("build supplied image {settings}")).done();
    let lines_told = "it is the right cycle of another list, of 4 lines; lines that differ: 4\n  \
        line 2 (tag 5), material code: expected 2, found 7\n  \
        line 3 (tag 5), weighing number: expected 3, found 33\n  \
        not in the list: tag 8, tare 1, material code 2, weighing number 3\n  \
        line 4 (tag 9, tare 8300, material code 4, weighing number 4) is not in the image\n";
    let text = folder.tares(&format!("check list image {settings}")).wrong_image();
    assert!(text.starts_with("wrong: 7 of 10 buckets differ from this list's cycle\n"), "{text}");
    assert!(text.contains(lines_told), "{text}");
    let field =
        "(data, segment 0), line 1 (line 2 of the list) material code: expected 2, found 7\n";
    assert!(text.contains(field), "{text}");
    let text = folder.tares("check list image").wrong_image();
    let first = format!("wrong: no settings fit\nanother list builds this image with {settings}\n");
    assert!(text.starts_with(&first) && text.contains(lines_told), "{text}");

    // With fewer lines, whose copies are fewer too.
    folder.write("list", lines[0].as_bytes());
    let text = folder.tares("check list image").wrong_image();
    assert!(text.contains("lines that differ: 3\n  not in the list: tag 5, tare 8100, "), "{text}");
    let text = folder.tares(&format!("check list image {settings}")).refused();
    assert!(text.starts_with("tares: refused by 5, place 0: "), "{text}");
}

/// Leading zeros in the list are no difference: the image is right, and of a
/// wrong one only what differs by its number is told.
#[test]
fn leading_zeros() {
    let folder = Folder::sample_yard("check_leading_zeros");
    folder.write("zeros", &full_of_zeros(&folder.read("list")));
    for settings in ["", R1] {
        let right = folder.tares(&format!("check list image {settings}")).done();
        assert_eq!(folder.tares(&format!("check zeros image {settings}")).done(), right);
    }
    let mut image = folder.read("image");
    image[240 * 6 + 44] = b'7';
    folder.write("image", &image);
    for settings in ["", R1] {
        let wrong = folder.tares(&format!("check zeros image {settings}")).wrong_image();
        assert_eq!(wrong, folder.tares(&format!("check list image {settings}")).wrong_image());
        let told = "lines that differ: 1\n  line 3 (tag 5), tare: expected 0, found 7\n";
        assert!(wrong.contains(told), "{wrong}");
    }
    // A line that the image lacks is told by its numbers.
    folder.write("zeros", line(4, 8_300, 1, 1).replace(' ', "0").as_bytes());
    let wrong = folder.tares("check zeros image").wrong_image();
    let told =
        "  line 1 (tag 4, tare 8300, material code 1, weighing number 1) is not in the image\n";
    assert!(wrong.contains(told), "{wrong}");
}

/// A list or image that is refused is told as elsewhere.
#[test]
fn refused() {
    let folder = Folder::sample_yard("check_refused");
    folder.write("falls", &list_of(&[5, 3]));
    folder.write("cut", &folder.read("image")[..2_000]);
    for settings in ["", R1] {
        let text = folder.tares(&format!("check falls image {settings}")).refused();
        assert!(text.starts_with("tares: refused by 4, place 1: tag falls\n"), "{text}");
        let text = folder.tares(&format!("check list cut {settings}")).refused();
        assert!(text.ends_with("\n  bucket 8 has only 80 of its 240 bytes\n"), "{text}");
        // The two files exchanged, and each of them twice.
        let text = folder.tares(&format!("check image list {settings}")).refused();
        assert!(text.ends_with("\n  the file looks like a list\n"), "{text}");
        let text = folder.tares(&format!("check image image {settings}")).refused();
        assert!(text.ends_with("\n  the file looks like an image\n"), "{text}");
    }
}
