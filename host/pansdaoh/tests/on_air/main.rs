//! `docs/ON-AIR.md` shows what the library does: each of its drawings, and each
//! row of its table of refusals, is made here by calls.

mod drawing;
mod hearing;
mod refusals;

use drawing::{cycle, drawn_bucket, drawn_line, tree};
use hearing::{changed, hearing, hearing_with_loss, mean_waits, sample_yard, sizes};
use pansdaoh::{build, Settings, BUCKET};
use reference::generate::{full_of_zeros, line, list_of};

const DOCUMENT: &str = include_str!("../../../../docs/ON-AIR.md");
const LIST_S: &str = include_str!("../../../sample/list");
const TABLE: &str = include_str!("../../../sample/table");
/// The tags of P11.
const EIGHT: [u64; 8] = [1, 2, 3, 5, 5, 5, 7, 8];

fn sample(layout: u64, copies: u64) -> Settings {
    Settings { n: 2, p: 1, layout, copies }
}

fn image(list: &[u8], settings: Settings) -> Vec<u8> {
    let mut image = vec![0; 40 * BUCKET];
    let buckets = build(list, settings, &mut image).unwrap();
    image.truncate(BUCKET * buckets as usize);
    image
}

/// List S of the sample yard on air.
fn sample_image(layout: u64, copies: u64) -> Vec<u8> {
    image(LIST_S.as_bytes(), sample(layout, copies))
}

fn bucket(image: &[u8], position: u64) -> &[u8] {
    &image[BUCKET * position as usize..][..BUCKET]
}

/// The document's drawings, in its order.
fn drawings() -> [String; 23] {
    let line = line(1_004_711, 8_450, 12, 31);
    let zeros = full_of_zeros(line.as_bytes());
    assert!(image(line.as_bytes(), sample(1, 0)) == image(&zeros, sample(1, 0)));
    let one_copy = sample_image(1, 1);
    let two_copies = sample_image(1, 2);
    let eight = image(&list_of(&EIGHT), sample(1, 2));
    [
        drawn_line(line.as_bytes()),
        drawn_line(&zeros),
        LIST_S.to_string(),
        drawn_bucket(bucket(&two_copies, 5)),
        drawn_bucket(bucket(&two_copies, 4)),
        tree(&sample_image(1, 0)),
        cycle(&sample_image(1, 0)),
        cycle(&one_copy),
        cycle(&two_copies),
        cycle(&sample_image(2, 2)),
        cycle(&image(b"", sample(1, 0))),
        sizes(),
        hearing(&one_copy, 5, 0),
        hearing(&one_copy, 6, 7),
        hearing(&one_copy, 10, 3),
        hearing(&two_copies, 9, 4),
        cycle(&eight),
        hearing(&eight, 5, 12),
        changed(&one_copy, &eight, 5, 0),
        hearing_with_loss(&one_copy, 5, 0, 6),
        TABLE.to_string(),
        mean_waits(),
        sample_yard(),
    ]
}

#[test]
fn shown_as_made() {
    let shown: Vec<&str> = DOCUMENT.split("```").skip(1).step_by(2).collect();
    let made = drawings();
    for (shown, made) in shown.iter().zip(&made) {
        assert!(*shown == format!("\n{made}"), "shown:{shown}\nmade:\n{made}");
    }
    assert_eq!(shown.len(), made.len());
}
