//! README's examples and usage, as the tool has them.

use reference::generate::line;
use reference::yards::image_of;

use crate::run::Folder;

const README: &str = include_str!("../../../../README.md");

/// What stands between lines of three backticks.
fn blocks() -> impl Iterator<Item = &'static str> {
    README.split("```\n").skip(1).step_by(2)
}

/// README's longest list, and its cycle with one digit of bucket 2373's first pair altered.
fn yard() -> Folder {
    let folder = Folder::new("readme");
    let list: String = (0..40_000).map(|i| line(i / 2, 8_000 + i % 900, i % 40, i)).collect();
    let mut image = image_of(list.as_bytes(), [8, 8, 1, 3]);
    let digit = &mut image[240 * 2_373 + 44];
    assert_eq!(std::mem::replace(digit, b'7'), b'2');
    folder.write("list", list.as_bytes());
    folder.write("image", &image);
    folder
}

/// Each command behind a $ prints what stands below it, up to three dots.
#[test]
fn examples() {
    let folder = yard();
    let mut count = 0;
    for block in blocks().filter(|block| block.starts_with("$ ")) {
        for example in block.split("$ tares ").skip(1) {
            let (words, shown) = example.split_once('\n').unwrap();
            let run = folder.tares(words);
            let printed = String::from_utf8(run.out).unwrap() + &run.err;
            match shown.strip_suffix("...\n") {
                Some(shown) => assert!(printed.starts_with(shown), "{words}\n{printed}"),
                None => assert_eq!(printed, shown, "{words}"),
            }
            count += 1;
        }
    }
    assert_eq!(count, 5);
}

/// Each line of usage is one of the command's help.
#[test]
fn usage() {
    let folder = Folder::new("readme_usage");
    let lines: Vec<&str> =
        blocks().find(|block| block.starts_with("tares check LIST")).unwrap().lines().collect();
    for line in &lines {
        let help = folder.tares(&format!("help {}", line.split(' ').nth(1).unwrap())).done();
        let is_line = |own: &str| own.trim_start_matches("Usage:").trim_start() == *line;
        assert!(help.lines().any(is_line), "{line}");
    }
    assert_eq!(lines.len(), 13);
}
