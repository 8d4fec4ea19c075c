//! The size of a cycle and the mean wait, alone and side by side.

use std::time::Duration;

use pansdaoh::Settings;
use reference::generate::{full_of_zeros, list, list_of, Random};

use crate::run::{within, Folder, R1};

#[test]
fn size() {
    let folder = Folder::new("plans_size");
    let figures = "index levels (k): 3\n\
                   data buckets (D): 5\n\
                   buckets of the cycle (N): 12\n\
                   bytes of the image: 2880\n\
                   buckets heard at most: ";
    for (within, heard) in [
        ("", "6, for a tag in 1 data bucket"),
        ("--in 0", "6, for a tag in 0 data buckets"),
        ("--in 2", "7, for a tag in 2 data buckets"),
        ("--in 9", "10, for a tag in 5 data buckets"),
    ] {
        let text = folder.tares(&format!("size --lines 5 {R1} {within}")).done();
        assert_eq!(text, format!("{figures}{heard}\n"));
    }
}

/// P1 to P4 of the sample yard among the rows.
#[test]
fn sizes() {
    let folder = Folder::new("plans_sizes");
    assert_eq!(
        folder.tares("size --lines 5 --n 2 --p 1 --in 2").done(),
        "layout  copies  k  D   N  bytes  heard\n     \
              1       0  3  5  11   2640      7\n     \
              1       1  3  5  12   2880      7\n     \
              1       2  3  5  13   3120      7\n     \
              2       1  3  5  11   2640      7\n     \
              2       2  3  5  17   4080      7\n     \
              2       4  3  5  29   6960      7\n"
    );
    let empty = folder.tares("size --lines 0 --n 8 --p 8").done();
    assert_eq!(
        empty,
        "layout  copies  k  D  N  bytes  heard\n     \
              1       0  1  0  1    240      4\n     \
              2       1  1  0  1    240      4\n"
    );
}

/// The numbers of a table's rows, as far as they are whole.
fn rows(table: &str) -> Vec<Vec<u64>> {
    let number = |word: &str| word.parse().ok();
    let row = |row: &str| row.split_whitespace().map_while(number).collect();
    table.lines().skip(1).map(row).collect()
}

/// The numbers behind the names of a text's lines.
fn figures_of(text: &str) -> Vec<u64> {
    let value = |line: &str| line.split_once(": ").unwrap().1.split(',').next().unwrap().parse();
    text.lines().map(|line| value(line).unwrap()).collect()
}

/// The settings that a table has: each r, and m = 1, 2, 4, 8 and so on, as far as the reference
/// takes them.
fn compared(lines: u64, n: u64, p: u64) -> Vec<Settings> {
    let distributed = (0..=5).map(|copies| (1, copies));
    let parts = (0..=16).map(|power| (2, 1 << power));
    let settings =
        distributed.chain(parts).map(|(layout, copies)| Settings { n, p, layout, copies });
    let taken = |settings: &Settings| {
        reference::size(lines, n, p, settings.layout, settings.copies, 0).is_ok()
    };
    settings.filter(taken).collect()
}

/// Each row is the size of its settings, and no settings are left out.
#[test]
fn rows_of_sizes() {
    let folder = Folder::new("plans_rows_of_sizes");
    let mut random = Random::new(21);
    for lines in [0, 1, 2, 7, 60, 500, 39_999, 40_000] {
        for _ in 0..4 {
            let (n, p, c) = (2 + random.below(7), 1 + random.below(8), random.below(20));
            let words = format!("size --lines {lines} --n {n} --p {p}");
            let table = folder.tares(&format!("{words} --in {c}")).done();
            let row = |settings: Settings| {
                let Settings { layout, copies, .. } = settings;
                let size = pansdaoh::size(lines, settings, c).unwrap();
                let text = folder
                    .tares(&format!("{words} --layout {layout} --copies {copies} --in {c}"))
                    .done();
                let figures = [size.k, size.d, size.n, size.bytes, size.heard];
                assert_eq!(figures_of(&text), figures, "{text}");
                [&[layout, copies][..], &figures].concat()
            };
            let expected: Vec<Vec<u64>> = compared(lines, n, p).into_iter().map(row).collect();
            assert_eq!(rows(&table), expected, "{words}");
        }
    }
}

#[test]
fn refused_sizes() {
    let folder = Folder::new("plans_refused_sizes");
    for (words, text) in [
        ("--lines 5 --n 9 --p 1", "1, place 0: n, p or layout outside its range\n  n 9 is outside 2 to 8"),
        (
            "--lines 40001 --n 2 --p 1",
            "2, place 0: list length no multiple of 27, or over 40,000 lines\n  \
             40001 lines are more than 40000, the most of a list",
        ),
        (
            "--lines 5 --n 2 --p 1 --layout 1 --copies 3",
            "5, place 0: copies outside its range\n  copies 3 is outside 0 to 2 here: \
             5 lines make k = 3 index levels; r is at most k - 1, and at most 4",
        ),
        (
            "--lines 40000 --n 8 --p 1 --layout 2 --copies 40000",
            "6, place 0: over 99,999 buckets\n  \
             40000 lines with --n 8 --p 1 --layout 2 --copies 40000 would make N = 228720000 buckets\n  \
             it fits with --copies 10 at most",
        ),
    ] {
        let refused = folder.tares(&format!("size {words}")).refused();
        assert_eq!(refused, format!("tares: refused by {text}\n"));
    }
}

#[test]
fn mean() {
    let folder = Folder::sample_yard("plans_mean");
    let text = "sum: 600\n\
                divisor: 48, 12 tune-ins x 4 tags\n\
                quotient: 12\n\
                remainder: 24\n\
                mean wait: 12.50 buckets\n";
    assert_eq!(folder.tares(&format!("mean list {R1}")).done(), text);
    let zeros = full_of_zeros(&folder.read("list"));
    assert_eq!(folder.tares_given(&format!("mean - {R1}"), &zeros).done(), text);
    // One tag, an index bucket and a data bucket: 4 go by from the one, 3 from the other.
    let one = folder.tares_given("mean - --n 2 --p 1 --layout 1 --copies 0", &list_of(&[7]));
    assert_eq!(
        one.done(),
        "sum: 7\ndivisor: 2, 2 tune-ins x 1 tag\nquotient: 3\nremainder: 1\nmean wait: 3.50 buckets\n"
    );
}

#[test]
fn means() {
    let folder = Folder::sample_yard("plans_means");
    let table = "layout  copies   sum  divisor  quotient  remainder   mean\n     \
                      1       0   671       44        15         11  15.25\n     \
                      1       1   600       48        12         24  12.50\n     \
                      1       2   624       52        12          0  12.00\n     \
                      2       1   671       44        15         11  15.25\n     \
                      2       2  1275       68        18         51  18.75\n     \
                      2       4  2784      116        24          0  24.00\n";
    for given in
        ["", "--compare", "--layout 1 --copies 1 --compare", "--layout 2 --copies 4 --compare"]
    {
        assert_eq!(folder.tares(&format!("mean list --n 2 --p 1 {given}")).done(), table);
    }
    let three = folder.tares("mean list --n 2 --p 1 --layout 2 --copies 3 --compare").done();
    let row = "     2       3  1794       92        19         46  19.50\n";
    assert_eq!(three.replacen(row, "", 1), table);
    let before = three.split_once(row).unwrap().0;
    assert!(before.ends_with("18.75\n"), "{three}");
}

/// Each row is the mean of its settings, with two decimals that are never too large.
#[test]
fn rows_of_means() {
    let folder = Folder::new("plans_rows_of_means");
    let mut random = Random::new(22);
    for lines in [1, 2, 7, 60, 500] {
        for _ in 0..4 {
            let (n, p, spread) = (2 + random.below(7), 1 + random.below(8), random.below(3));
            let list = list(&mut random, lines, spread);
            folder.write("list", &list);
            let table = folder.tares(&format!("mean list --n {n} --p {p} --compare")).done();
            let mut decimals = table.lines().skip(1).map(|row| row.rsplit(' ').next().unwrap());
            let row = |settings: Settings| {
                let Settings { layout, copies, .. } = settings;
                let mean = pansdaoh::mean(&list, settings).unwrap();
                let hundredths: u64 = decimals.next().unwrap().replace('.', "").parse().unwrap();
                let least = hundredths as u128 * mean.divisor as u128;
                let sum = 100 * mean.sum as u128;
                assert!(least <= sum && sum < least + mean.divisor as u128, "{table}");
                vec![layout, copies, mean.sum, mean.divisor, mean.quotient, mean.remainder]
            };
            let expected: Vec<Vec<u64>> = compared(lines, n, p).into_iter().map(row).collect();
            assert_eq!(rows(&table), expected);
        }
    }
}

#[test]
fn refused_means() {
    let folder = Folder::new("plans_refused_means");
    let by_17 = "tares: refused by 17, place 0: the list has no line\n  \
                 a wait is for a tag, and a list without lines has none\n";
    let by_4 = "tares: refused by 4, place 1: tag falls\n  line 2 (place 1): tag 3 is below tag 5 of line 1\n";
    let by_1 =
        "tares: refused by 1, place 0: n, p or layout outside its range\n  p 9 is outside 1 to 8\n";
    let by_5 = "tares: refused by 5, place 0: copies outside its range\n  copies 1 is outside 0 to 0 here: ";
    for settings in ["--layout 1 --copies 0", "--compare", "--layout 1 --copies 0 --compare"] {
        let mean = |list: &[u8], p: u64| {
            folder.tares_given(&format!("mean - --n 2 --p {p} {settings}"), list).refused()
        };
        assert_eq!(mean(b"", 1), by_17);
        assert!(mean(&list_of(&[5, 3]), 1).starts_with(by_4));
        assert_eq!(mean(&list_of(&[5, 3]), 9), by_1);
    }
    for compare in ["", "--compare"] {
        let words = format!("mean - --n 2 --p 1 --layout 1 --copies 1 {compare}");
        let text = folder.tares_given(&words, &list_of(&[5])).refused();
        assert!(text.starts_with(by_5), "{text}");
    }
}

/// 40,000 lines are compared within a tenth of a second.
#[test]
fn means_of_a_long_list() {
    let folder = Folder::new("plans_means_of_a_long_list");
    folder.write("list", &list(&mut Random::new(23), 40_000, 3));
    let mut table = String::new();
    let words = "mean list --n 8 --p 8 --compare";
    assert!(within(Duration::from_millis(100), || table = folder.tares(words).done()));
    assert_eq!(rows(&table).len(), 5 + 8);
}
