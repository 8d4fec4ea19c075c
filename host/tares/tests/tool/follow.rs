use reference::generate::{list_of, Random};
use reference::yards::damaged_cycle;
use reference::{Answer, Listener};

use crate::run::{Folder, R1};

/// P6 of the sample yard, bucket by bucket.
#[test]
fn found() {
    let folder = Folder::sample_yard("follow_found");
    let line = "  tag 5, tare 0, material code 0, weighing number 0\n";
    let way = format!(
        "bucket 0 (index, segment 0): tune-in, the next index segment; doze 8, to bucket 8\n\
         bucket 8 (index, segment 1): pair 1, tag 5 is at most 8, the last one sent, so it comes in the next cycle; \
         doze 4, to bucket 0\n\
         bucket 0 (index, segment 0): entry 1, tag 5 is at most 8, the largest below it; doze 1, to bucket 1\n\
         bucket 1 (index, segment 0): entry 1, tag 5 is at most 5, the largest below it; doze 1, to bucket 2\n\
         bucket 2 (index, segment 0): entry 2, tag 5 is at most 5, the largest below it; doze 3, to bucket 5\n\
         bucket 5 (data, segment 0): 1 line of the tag, and the follow-on leads to more; doze 1, to bucket 6\n{line}\
         bucket 6 (data, segment 0): 1 line of the tag; found\n{line}\
         found, heard 7, elapsed 19, lines 2\n"
    );
    assert_eq!(folder.tares("follow image 5 --tune-in 0").done(), way);
    let image = folder.read("image");
    assert_eq!(folder.tares_given("follow - 5 --tune-in 0", &image).done(), way);
}

/// Absent by the entries, and by a data bucket; a later pair on the way.
#[test]
fn absent() {
    let folder = Folder::sample_yard("follow_absent");
    let text = folder.tares("follow image 10 --tune-in 3").done();
    assert!(
        text.ends_with(
            "bucket 8 (index, segment 1): no entry reaches tag 10; absent\n\
             absent, heard 2, elapsed 6, lines 0\n"
        ),
        "{text}"
    );
    let text = folder.tares("follow image 6 --tune-in 7").done();
    assert!(
        text.ends_with(
            "bucket 7 (data, segment 0): 0 lines of the tag; absent\n\
             absent, heard 6, elapsed 13, lines 0\n"
        ),
        "{text}"
    );
    folder.write("list", &list_of(&[1, 2, 3, 5, 5, 5, 7, 8]));
    folder.tares("build list image --n 2 --p 1 --layout 1 --copies 2").done();
    let text = folder.tares("follow image 8 --tune-in 0").done();
    let pair = "pair 2, tag 8 is above 5, the largest under the path's level 2 bucket; doze";
    assert!(text.contains(pair), "{text}");
}

/// The way up to a refusal is told, then the refusal.
#[test]
fn refused() {
    let folder = Folder::sample_yard("follow_refused");
    let mut image = folder.read("image");
    image.copy_within(240 * 5..240 * 6, 240 * 8);
    folder.write("image", &image);
    let run = folder.tares("follow image 9 --tune-in 0");
    assert_eq!(
        String::from_utf8(run.out).unwrap(),
        "bucket 0 (index, segment 0): tune-in, the next index segment; doze 8, to bucket 8\n\
         bucket 8 (data, segment 1): refused by 9\n"
    );
    let message =
        "tares: refused by 9, place 8: letter, position or N not as awaited\n  tag 9, tune-in 0\n";
    assert_eq!(run.status, 1);
    assert!(run.err.starts_with(message), "{}", run.err);
}

/// Damaged images in the folder, each with a tag and a tune-in.
fn each_damaged(
    folder: &Folder,
    seed: u64,
    times: usize,
    mut check: impl FnMut(&mut Random, &[u8], u64, u64),
) {
    let random = &mut Random::new(seed);
    for _ in 0..times {
        let image = damaged_cycle(random, 12, 3);
        if image.is_empty() {
            continue;
        }
        folder.write("image", &image);
        let (tag, tune_in) = (random.below(12), random.below((image.len() / 240) as u64));
        check(random, &image, tag, tune_in);
    }
}

/// On damaged images too the last line is a lookup's, and each step says where it leads.
#[test]
fn damaged_images() {
    let folder = Folder::new("follow_damaged_images");
    let mut ends = [0; 2];
    each_damaged(&folder, 12, 200, |_, _, tag, tune_in| {
        let words = format!("image {tag} --tune-in {tune_in}");
        let (looked, followed) =
            (folder.tares(&format!("lookup {words}")), folder.tares(&format!("follow {words}")));
        assert_eq!((looked.status, looked.err), (followed.status, followed.err));
        let (looked, followed) =
            (String::from_utf8(looked.out).unwrap(), String::from_utf8(followed.out).unwrap());
        let end = followed.lines().last().unwrap();
        if let Some(report) = looked.lines().next() {
            assert_eq!(end, report);
            let lines = looked.lines().count() - 1;
            assert!(report.starts_with("absent") || followed.matches("\n  tag ").count() == lines);
        } else {
            assert!(end.contains("refused by "), "{end}");
        }
        assert!(!followed.contains("a pointer"), "{followed}");
        ends[looked.is_empty() as usize] += 1;
    });
    assert!(ends[0] > 50 && ends[1] > 20, "{ends:?}");
}

#[test]
fn sample_yard_lookups() {
    let folder = Folder::sample_yard("follow_sample_yard");
    for (tag, tune_in) in [(5, 0), (6, 7), (10, 3), (9, 0), (3, 8)] {
        let words = format!("image {tag} --tune-in {tune_in}");
        let looked = folder.tares(&format!("lookup {words}")).done();
        let followed = folder.tares(&format!("follow {words}")).done();
        assert_eq!(followed.lines().last(), looked.lines().next());
    }
    assert_eq!(folder.tares(&format!("check list image {R1}")).status, 0);
}

/// P6 with its last bucket lost: from the next bucket on the tag is heard anew.
#[test]
fn lost() {
    let folder = Folder::sample_yard("follow_lost");
    let text = folder.tares("follow image 5 --tune-in 0 --lost 6").done();
    let whole = folder.tares("follow image 5 --tune-in 0").done();
    let before = whole.split_once("bucket 6 ").unwrap().0;
    let anew = folder.tares("follow image 5 --tune-in 7").done();
    let anew = anew.split_once("found, ").unwrap().0;
    let lost = "bucket 6 (data, segment 0): lost, the next bucket is a tune-in, \
                and lines taken before are void; doze 1, to bucket 7\n";
    assert_eq!(text, format!("{before}{lost}{anew}found, heard 14, elapsed 31, lines 2, lost 1\n"));
    // Each time that it is named; before any line nothing is void.
    let text = folder.tares("follow image 5 --tune-in 0 --lost 6,0,6").done();
    assert!(text.ends_with("\nfound, heard 22, elapsed 43, lines 2, lost 3\n"), "{text}");
    let first =
        "bucket 0 (index, segment 0): lost, the next bucket is a tune-in; doze 1, to bucket 1\n";
    assert!(text.starts_with(first), "{text}");
    // Absent, with a data bucket as its second tune-in.
    let text = folder.tares("follow image 6 --tune-in 7 --lost 3").done();
    let anew = "bucket 4 (data, segment 0): tune-in, the next index segment; doze 4, to bucket 8\n";
    assert!(text.contains(anew) && text.ends_with("lines 0, lost 1\n"), "{text}");
}

/// A bucket that the display does not wake for, or not again, cannot be lost to it.
#[test]
fn not_lost() {
    let folder = Folder::sample_yard("follow_not_lost");
    let run = folder.tares("follow image 9 --tune-in 7 --lost 7,4,11,7,3,7");
    let text = String::from_utf8(run.out).unwrap();
    assert!(text.ends_with("\nfound, heard 11, elapsed 29, lines 1, lost 2\n"), "{text}");
    let warnings = "tares: warning: bucket 3 was not lost: the display did not wake for it\n\
                    tares: warning: bucket 4 was not lost: the display did not wake for it\n\
                    tares: warning: bucket 7 was lost 1 of 3 times: the display did not wake for it again\n";
    assert_eq!((run.status, &*run.err), (0, warnings));
}

/// What the reference's listener says that loses these buckets, each when it wakes for it: heard,
/// elapsed and lines at its end, or the refusal's number and place.
fn hearing(image: &[u8], tag: u64, tune_in: usize, mut lost: Vec<usize>) -> String {
    let (mut listener, mut place, mut taken, mut losses) = (Listener::new(tag), tune_in, 0, 0);
    loop {
        let named = lost.iter().position(|&bucket| bucket == place);
        let (next, answer, _, count) = match named.map(|named| lost.remove(named)) {
            Some(_) => listener.lost(),
            None => listener.step(&image[240 * place..][..240]),
        };
        listener = next;
        losses += named.is_some() as u64;
        taken = if named.is_some() { 0 } else { taken + count };
        let counts = format!("heard {}, elapsed {}", listener.heard(), listener.elapsed());
        match answer {
            Answer::Doze(distance) => place = (place + distance as usize) % (image.len() / 240),
            Answer::Found => return format!("found, {counts}, lines {taken}, lost {losses}"),
            Answer::Absent => return format!("absent, {counts}, lines 0, lost {losses}"),
            Answer::Refused(number) => return format!("refused by {number}, place {place}"),
        }
    }
}

/// Any losses, over damaged images too.
#[test]
fn lost_of_damaged_images() {
    let folder = Folder::new("follow_lost_of_damaged_images");
    let mut seen = [0; 3];
    each_damaged(&folder, 13, 300, |random, image, tag, tune_in| {
        let buckets = (image.len() / 240) as u64;
        let lost: Vec<usize> =
            (0..1 + random.below(2 * buckets)).map(|_| random.below(buckets) as usize).collect();
        let names: Vec<String> = lost.iter().map(usize::to_string).collect();
        let words = format!("follow image {tag} --tune-in {tune_in} --lost {}", names.join(","));
        let run = folder.tares(&words);
        let text = String::from_utf8(run.out).unwrap();
        assert!(!text.contains("a pointer"), "{text}");
        let end = hearing(image, tag, tune_in as usize, lost);
        if run.status == 0 {
            assert_eq!(text.lines().last(), Some(&*end));
        } else {
            assert!(run.err.starts_with(&format!("tares: {end}: ")), "{end}, {}", run.err);
        }
        let refused = run.status == 1;
        seen[if refused { 2 } else { end.starts_with("absent") as usize }] += 1;
    });
    assert!(seen.iter().all(|&times| times > 20), "{seen:?}");
}
