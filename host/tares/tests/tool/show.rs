use reference::generate::Random;
use reference::yards::damaged_cycle;

use crate::run::Folder;

const INDEX: &str = "\
bucket 8 (index, segment 1)
      0-5  position: 8
     6-11  distance to the next cycle: 4, N is 12
    12-17  distance to the next index segment: 4, to bucket 0 of the next cycle
    18-23  follow-on: 0, none
       24  letter: I, index
    25-26  number of control pairs: 1
    27-28  number of entries: 2
    29-38  pair 1 tag: 8, the last one sent earlier in this cycle
    39-44  pair 1 distance: 4, to bucket 0 of the next cycle
   93-102  entry 1 tag: 8, the largest below it
  103-108  entry 1 distance: 4, to bucket 0 of the next cycle
  109-118  entry 2 tag: 9, the largest below it
  119-124  entry 2 distance: 1, to bucket 9
";

const DATA: &str = "\
bucket 5 (data, segment 0)
      0-5  position: 5
     6-11  distance to the next cycle: 7, N is 12
    12-17  distance to the next index segment: 3, to bucket 8
    18-23  follow-on: 1, to bucket 6
       24  letter: D, data
    25-26  number of control pairs: 0
    27-28  number of lines: 1
    29-38  line 1 tag: 5
    39-44  line 1 tare: 0, kg
    45-48  line 1 material code: 0
    49-54  line 1 weighing number: 0
";

#[test]
fn buckets_in_words() {
    let folder = Folder::sample_yard("show_buckets_in_words");
    assert_eq!(folder.tares("show image 8").done(), INDEX);
    assert_eq!(folder.tares("show image 5").done(), DATA);
    let several = folder.tares("show image 5-8").done();
    assert!(several.starts_with(DATA) && several.ends_with(INDEX), "{several}");
    assert_eq!(several.matches("\nbucket ").count(), 3);
    let first = folder.tares("show image 0-0").done();
    assert!(
        first.contains("  pair 1 tag: blank, no line was sent earlier in this cycle\n"),
        "{first}"
    );
    folder.tares("build list image --n 2 --p 1 --layout 1 --copies 2").done();
    let path = folder.tares("show image 1").done();
    assert!(
        path.contains("  pair 2 tag: 8, the largest under the path's level 2 bucket\n"),
        "{path}"
    );
}

#[test]
fn overview() {
    let folder = Folder::sample_yard("show_overview");
    let text = folder.tares("show image").done();
    let lines: Vec<&str> = text.lines().collect();
    assert_eq!(lines.len(), 12);
    assert_eq!(lines[8], "bucket 8 (index, segment 1): 1 control pair, entries 2: 8, 9");
    let line = "tag 5, tare 0, material code 0, weighing number 0";
    assert_eq!(lines[5], format!("bucket 5 (data, segment 0): 1 line: {line}"));
}

/// Each rule of "A bucket" that a bucket may break: the bucket, the column from which it gets other
/// bytes, and the reason told.
const MISPRINTS: [(usize, usize, &str, &str); 22] = [
    (8, 0, "08", "position \"08   8\" has a blank among its digits"),
    (8, 6, "99995 ", "distance to the next cycle \"99995 \" is not right-justified"),
    (8, 6, " 99995", "position and distance to the next cycle make 100003, over 99999"),
    (8, 6, "     0", "distance to the next cycle is 0"),
    (
        8,
        12,
        "     5",
        "distance to the next index segment 5 is over 4, the distance to the next cycle",
    ),
    (8, 18, "     1", "follow-on 1 in an index bucket"),
    (5, 18, "     7", "follow-on 7 is not below the distance to the next cycle, 7"),
    (8, 24, "x", "letter \"x\" is neither I nor D"),
    (8, 25, " 5", "number of control pairs 5 is over 4"),
    (5, 25, " 1", "control pairs in a data bucket"),
    (8, 27, " 9", "number of entries 9 is over 8"),
    (5, 27, " 0", "a data bucket without lines"),
    (8, 29, "4294967296", "pair 1 tag 4294967296 is over 4294967295"),
    (8, 39, "     0", "pair 1 distance is 0"),
    (8, 93, "        10", "entry 2 tag 9 is below entry 1 tag 10"),
    (8, 93, "          ", "entry 1 tag is blank"),
    (8, 39, "     5", "pair 1 distance 5 is over 4, the distance to the next cycle"),
    (8, 119, "     5", "entry 2 distance 5 is over 4, the distance to the next cycle"),
    (8, 130, "7", "unused column 130 not blank: \"7\""),
    (8, 60, "7 7", "unused columns 60 to 62 not blank: \"7 7\""),
    (5, 39, "100000", "line 1 tare 100000 is over 99999"),
    (5, 239, "0", "\"0\" in column 239 where the newline is due"),
];

#[test]
fn misprints() {
    let folder = Folder::sample_yard("show_misprints");
    let image = folder.read("image");
    for (place, at, columns, reason) in MISPRINTS {
        let mut image = image.clone();
        image[240 * place + at..][..columns.len()].copy_from_slice(columns.as_bytes());
        folder.write("given", &image);
        let text = folder.tares(&format!("show given {place}")).done();
        let first = text.lines().next().unwrap();
        assert!(first.ends_with(&format!("), misprinted: {reason}")), "{first}");
        let overview = folder.tares("show given").done();
        let line = overview.lines().nth(place).unwrap();
        assert!(line.ends_with(&format!("): misprinted: {reason}")), "{line}");
    }
}

/// A misprinted distance leads to no bucket.
#[test]
fn past_the_next_start() {
    let folder = Folder::sample_yard("show_past_the_next_start");
    let mut image = folder.read("image");
    image[240 * 8 + 103..][..6].copy_from_slice(b"     5");
    folder.write("given", &image);
    let text = folder.tares("show given 8").done();
    assert!(text.contains("  entry 1 distance: 5, past the next cycle's start\n"), "{text}");
}

#[test]
fn falling_tags_of_lines() {
    let folder = Folder::sample_yard("show_falling_tags_of_lines");
    folder.tares("build list image --n 2 --p 2 --layout 1 --copies 0").done();
    let mut image = folder.read("image");
    let data = image.chunks(240).position(|bucket| bucket[24] == b'D').unwrap();
    image[240 * data + 38] = b'7';
    folder.write("given", &image);
    let text = folder.tares(&format!("show given {data}")).done();
    assert!(text.contains(", misprinted: line 2 tag 5 is below line 1 tag 7\n"), "{text}");
}

/// Whatever the library takes for misprinted has a reason, and every field is shown.
#[test]
fn damaged_images() {
    let folder = Folder::new("show_damaged_images");
    let mut random = Random::new(11);
    for _ in 0..150 {
        let image = damaged_cycle(&mut random, 12, 6);
        if image.is_empty() {
            continue;
        }
        folder.write("image", &image);
        let text = folder.tares("show image").done();
        assert_eq!(text.lines().count(), image.len() / 240);
        for (line, bucket) in text.lines().zip(image.chunks(240)) {
            let step = pansdaoh::Listener::new(0).step(bucket).0;
            let refusal = pansdaoh::Refusal { number: 8, place: 0 };
            let misprinted = step == pansdaoh::Answer::Refused(refusal);
            assert_eq!(line.contains("): misprinted: "), misprinted, "{line}");
            assert!(!line.ends_with("misprinted"), "{line}");
        }
        folder.tares(&format!("show image 0-{}", image.len() / 240 - 1)).done();
    }
}
