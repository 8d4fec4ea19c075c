use std::time::Duration;

use reference::generate::{list, Random};

use crate::run::{within, Folder};

#[test]
fn longest_list() {
    let folder = Folder::new("longest_list");
    let list = list(&mut Random::new(1), 40_000, 3);
    folder.write("list", &list);
    for (n, p, layout, copies) in [(2, 1, 1, 4), (8, 8, 1, 1), (8, 1, 2, 10)] {
        let settings = format!("--n {n} --p {p} --layout {layout} --copies {copies}");
        let mut image = vec![0; 240 * 99_999];
        let buckets = reference::build(&list, n, p, layout, copies, &mut image).unwrap();
        image.truncate(240 * buckets as usize);
        let report = folder.tares(&format!("build list image {settings}")).done();
        assert_eq!(report, format!("40000 lines, {buckets} buckets\n"));
        assert!(folder.read("image") == image);
        let report = folder.tares(&format!("read image back {settings} --force")).done();
        assert_eq!(report, format!("40000 lines, {buckets} buckets\n"));
        assert!(folder.read("back") == list);
        let tag = std::str::from_utf8(&list[27 * 30_000..][..10]).unwrap().trim();
        let report = folder.tares(&format!("lookup image {tag} --tune-in 1000 lines")).done();
        let mut lines = vec![0; 27 * 40_000];
        let looked = reference::lookup(&image, tag.parse().unwrap(), 1_000, &mut lines).unwrap();
        let (heard, elapsed, count) = (looked.heard, looked.elapsed, looked.lines);
        let expected = format!("found, heard {heard}, elapsed {elapsed}, lines {count}\n");
        assert_eq!(report, expected);
        assert!(folder.read("lines") == lines[..27 * count as usize]);
    }
}

#[test]
fn table_of_a_long_cycle() {
    let folder = Folder::new("table_of_a_long_cycle");
    let list = list(&mut Random::new(2), 40_000, 3);
    folder.write("list", &list);
    folder.tares("build list image --n 8 --p 4 --layout 1 --copies 2").done();
    let image = folder.read("image");
    let tag = std::str::from_utf8(&list[27 * 20_000..][..10]).unwrap().trim();
    let table = folder.tares(&format!("table image {tag}")).done();
    let mut rows = table.lines();
    for tune_in in 0..(image.len() / 240) as u64 {
        let tag = tag.parse().unwrap();
        let looked = reference::lookup(&image, tag, tune_in, &mut [0; 270]).unwrap();
        let (heard, elapsed, lines) = (looked.heard, looked.elapsed, looked.lines);
        let row = format!("{tune_in:>6}{heard:>6}{elapsed:>6}{lines:>6}");
        assert_eq!(rows.next(), Some(&*row));
    }
    assert_eq!(rows.next(), None);
}

/// 40,000 lines are checked within a tenth of a second.
#[test]
fn check_of_a_long_list() {
    let folder = Folder::new("check_of_a_long_list");
    folder.write("list", &list(&mut Random::new(4), 40_000, 3));
    for settings in ["--n 2 --p 1 --layout 1 --copies 4", "--n 8 --p 8 --layout 1 --copies 1"] {
        folder.tares(&format!("build list image {settings}")).done();
        let checked = within(Duration::from_millis(100), || {
            let text = folder.tares(&format!("check list image {settings}")).done();
            assert!(text.starts_with("right: 40000 lines, "), "{text}");
        });
        assert!(checked, "{settings}");
        let text = folder.tares("check list image").done();
        assert!(text.contains(&format!("cycle with {settings}\n")), "{text}");
    }
}

/// Longer files are refused without being read to their end.
#[test]
fn too_long() {
    let folder = Folder::new("too_long");
    let settings = "--n 8 --p 8 --layout 1 --copies 1";
    let list = list(&mut Random::new(3), 40_001, 3);
    let text = folder.tares_given(&format!("build - - {settings}"), &list).refused();
    assert!(text.starts_with("tares: refused by 2, place 0"), "{text}");
    assert!(text.ends_with("more than 1080000 = 40000 x 27 bytes\n"), "{text}");
    for words in [&format!("read /dev/zero - {settings}"), "lookup /dev/zero 5 --tune-in 0"] {
        let text = folder.tares(words).refused();
        assert!(text.starts_with("tares: refused by 11, place 0"), "{text}");
        assert!(text.ends_with("more than 23999760 = 99999 x 240 bytes\n"), "{text}");
    }
}
