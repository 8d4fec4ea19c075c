//! Settings that are not given.

use reference::generate::{list, list_of, Random};
use reference::yards::{image_of, legal_copies, legal_settings, Settings};

use crate::run::{Folder, R1};

/// The settings that a check says fit, ranges of n and p taken apart.
fn said(text: &str) -> Vec<Settings> {
    let mut said = Vec::new();
    for line in text.lines().filter(|line| line.contains(" with --n ")) {
        let options = line.split(" --").skip(1);
        let ranges: Vec<Vec<u64>> = options
            .map(|option| option.split(' ').filter_map(|word| word.parse().ok()).collect())
            .collect();
        let range = |i: usize| ranges[i][0]..=*ranges[i].last().unwrap();
        for (n, p) in range(0).flat_map(|n| range(1).map(move |p| (n, p))) {
            said.push([n, p, ranges[2][0], ranges[3][0]]);
        }
    }
    said.sort();
    said
}

/// All settings that fit a short list are said, and no others.
#[test]
fn all_that_fit() {
    let folder = Folder::new("search_all_that_fit");
    let mut random = Random::new(3);
    for lines in [0, 1, 2, 3, 5, 8, 13, 40] {
        let list = list(&mut random, lines, 2);
        folder.write("list", &list);
        for _ in 0..6 {
            let image = image_of(&list, legal_settings(&mut random, lines));
            folder.write("image", &image);
            let run = folder.tares("check list image");
            assert_eq!(run.status, 0);
            let all = (2..=8).flat_map(|n| (1..=8).map(move |p| (n, p)));
            let copies = all.flat_map(|(n, p)| {
                let parts = lines.div_ceil(p).max(1);
                let layout_2 = (1..=parts).map(move |m| [n, p, 2, m]);
                let layout_1 = legal_copies(lines, n, p).into_iter().filter(|s| s[2] == 1);
                layout_1.chain(layout_2)
            });
            let mut fit: Vec<Settings> = copies.filter(|&s| image_of(&list, s) == image).collect();
            fit.sort();
            assert_eq!(said(&String::from_utf8(run.out).unwrap()), fit);
        }
    }
}

/// The settings of longer lists are found too.
#[test]
fn longer_lists() {
    let folder = Folder::new("search_longer_lists");
    let mut random = Random::new(4);
    for lines in [64, 100, 700, 1_000, 2_500] {
        let list = list(&mut random, lines, 2);
        folder.write("list", &list);
        for _ in 0..8 {
            let settings = legal_settings(&mut random, lines);
            let [n, p, layout, copies] = settings;
            if reference::size(lines, n, p, layout, copies, 0).is_err() {
                continue;
            }
            folder.write("image", &image_of(&list, settings));
            let text = folder.tares("check list image").done();
            assert!(said(&text).contains(&settings), "{settings:?}: {text}");
        }
    }
}

/// Settings that are given narrow the search.
#[test]
fn some_given() {
    let folder = Folder::sample_yard("search_some_given");
    let with = format!("the image is this list's cycle with {R1}\n");
    for words in ["--n 2", "--layout 1 --copies 1", "--p 1 --copies 1"] {
        let text = folder.tares(&format!("check list image {words}")).done();
        assert!(text.contains(&with), "{text}");
    }
    let but = format!("but the image is this list's cycle with {R1}\n");
    for words in ["--n 3", "--n 9", "--layout 1 --copies 0"] {
        let text = folder.tares(&format!("check list image {words}")).wrong_image();
        assert_eq!(text, format!("wrong: no settings fit\nnone make 12 buckets of 5 lines\n{but}"));
    }
    let text = folder.tares("check list image --layout 2").wrong_image();
    assert!(
        text.starts_with("wrong: no settings fit\nthe nearest cycle of this list is that with ")
    );
    assert!(text.contains(&but), "{text}");
}

/// Wrong settings are told from a wrong image.
#[test]
fn other_settings() {
    let folder = Folder::sample_yard("search_other_settings");
    let text = folder.tares("check list image --n 3 --p 1 --layout 1 --copies 1").wrong_image();
    let first =
        "wrong: 12 buckets differ (9 altered, 3 surplus): this list's cycle has 9, the image 12\n";
    let second = format!("but the image is this list's cycle with {R1}\n");
    assert!(text.starts_with(&(first.to_string() + &second)), "{text}");
    // An image that no settings make of this list.
    folder.write("list", &list_of(&[7]));
    let text = folder.tares("check list image").wrong_image();
    assert!(text.contains("it is the right cycle of another list, of 5 lines"), "{text}");
    folder.write("image", &folder.read("image")[240 * 4..]);
    let text = folder.tares("check list image").wrong_image();
    assert_eq!(text, "wrong: no settings fit\nnone make 8 buckets of 1 lines\n");
}
