//! The refusals of each call, in the order in which it tests them. What a row gives
//! has the faults of the rows behind it as well, where it can have them.

use reference::air::{index, Hears};
use reference::generate::list_of;
use reference::skips::{Call, Given};
use reference::yards::{image_of, Settings};
use reference::{Answer, Refusal};

use crate::changing::CALLS;
use crate::compare::{build, lookup, read_back};
use crate::listening::Both;
use crate::{averaging, lines, sizing};

/// Number and place.
type Told = (u64, u64);

/// What is due, and what both sides gave.
type Rows = Vec<(Told, Told)>;

/// A call, its numbers in the order of its tests, and its rows.
type Order = (&'static str, &'static [u64], fn() -> Rows);

const ORDERS: [Order; 10] = [
    ("build", &[1, 2, 3, 4, 5, 6, 7], building),
    ("size", &[1, 2, 5, 6], sizing),
    ("arrive", &[1, 2, 3, 4, 16, 5, 6, 7], || changing(CALLS.arrive, 16)),
    ("take_out", &[1, 2, 3, 4, 15, 5, 6, 7], || changing(CALLS.take_out, 15)),
    ("mean", &[1, 2, 3, 4, 5, 6, 17], averaging),
    ("read_back", &[1, 11, 13, 7], reading_back),
    ("step", &[14, 8, 9, 10], stepping),
    ("lost", &[14], losing),
    ("lookup", &[11, 12, 8, 9, 10, 7], looking_up),
    ("line", &[8], line),
];

/// Each row gives what is due, and a call's rows have its numbers in its order. A number
/// may have several rows.
#[test]
fn each_number_in_its_order() {
    for (call, numbers, rows) in ORDERS {
        let rows = rows();
        for (due, given) in &rows {
            assert_eq!(given, due, "{call}");
        }
        let mut tested: Vec<u64> = rows.iter().map(|(due, _)| due.0).collect();
        tested.dedup();
        assert_eq!(tested, numbers, "{call}");
    }
}

/// Settings for no line and for one.
const PLAIN: Settings = [2, 1, 2, 1];

/// More parts than there are data buckets, and over 99,999 buckets with them.
const MANY: Settings = [2, 1, 2, 100_000];

/// The same with n out of its range.
const NINE: Settings = [9, 1, 2, 100_000];

/// Over 99,999 buckets, from 315 lines on.
const LONG: Settings = [2, 1, 2, 315];

/// A byte less than one bucket, and than one line.
const SHORT: usize = 239;
const SHORT_LINE: usize = 26;

/// A misprinted bucket, and misprinted lines.
const BLANKS: &[u8] = &[b' '; 240];

/// Tags that fall twice; the same and two misprinted lines.
fn falling() -> (Vec<u8>, Vec<u8>) {
    let falling = list_of(&[5, 3, 2]);
    let misprinted = [&falling, &BLANKS[..54]].concat();
    (falling, misprinted)
}

/// Lists and settings that are refused by 1 to 6.
fn lists() -> Vec<(Told, Vec<u8>, Settings)> {
    let (falling, misprinted) = falling();
    let cut = &misprinted[1..];
    vec![
        ((1, 0), cut.into(), NINE),
        ((2, 0), cut.into(), MANY),
        ((3, 3), misprinted, MANY),
        ((4, 1), falling, MANY),
        ((5, 0), vec![], MANY),
        ((6, 0), list_of(&[7; 315]), LONG),
    ]
}

fn building() -> Rows {
    let last = ((7, 0), vec![], PLAIN);
    let rows = lists().into_iter().chain([last]).map(|(due, list, settings)| {
        let answer = build(&list, settings, SHORT);
        (due, (answer.number, answer.place))
    });
    rows.collect()
}

fn averaging() -> Rows {
    let last = ((17, 0), vec![], PLAIN);
    let rows = lists().into_iter().chain([last]).map(|(due, list, settings)| {
        let refusal = averaging::compare(&list, settings).unwrap_err();
        (due, told(refusal))
    });
    rows.collect()
}

fn told(refusal: Refusal) -> Told {
    (refusal.number, refusal.place)
}

fn sizing() -> Rows {
    let row = |due, lines, settings| {
        let size = sizing::compare(lines, settings, 0);
        (due, (size.number, size.place))
    };
    vec![
        row((1, 0), 40_001, NINE),
        row((2, 0), 40_001, MANY),
        row((5, 0), 0, MANY),
        row((6, 0), 315, LONG),
    ]
}

/// Changes, and the number that only this call has.
fn changing(call: Call, own: u64) -> Rows {
    let (falling, misprinted) = falling();
    let (line, other, blanks) = (&list_of(&[3])[..], &list_of(&[4])[..], &BLANKS[..27]);
    // One line, and a place for another.
    let free = &[line, blanks].concat()[..];
    let long = &list_of(&[3; 317]);
    let row = |due, list: &[u8], lines, line: &[u8], settings| {
        let mut buffer = list.to_vec();
        let made = call(&mut buffer, Given { lines, line, settings, room: SHORT });
        assert!(buffer == list, "the list was touched");
        (due, told(made.unwrap_err()))
    };
    vec![
        row((1, 0), &misprinted, 6, &blanks[1..], NINE),
        row((2, 0), &misprinted, 6, blanks, MANY),
        row((2, 0), &misprinted, 5, &blanks[1..], MANY),
        row((3, 3), &misprinted, 5, blanks, MANY),
        row((3, 3), &falling, 3, blanks, MANY),
        row((4, 1), &falling, 3, other, MANY),
        row((own, 0), line, 1, other, MANY),
        row((5, 0), free, 1, line, MANY),
        row((6, 0), long, 316, line, LONG),
        row((7, 0), free, 1, line, PLAIN),
    ]
}

/// The cycle of a line of tag 5.
fn image() -> Vec<u8> {
    image_of(&list_of(&[5]), PLAIN)
}

fn reading_back() -> Rows {
    let image = &image()[..];
    // The data bucket stands before the index bucket.
    let turned = &[&image[240..], &image[..240]].concat()[..];
    let row = |due, image: &[u8], settings| {
        let answer = read_back(image, settings, SHORT_LINE);
        (due, (answer.number, answer.place))
    };
    vec![
        row((1, 0), b"", NINE),
        row((11, 0), b"", PLAIN),
        row((11, 0), &turned[1..], PLAIN),
        row((13, 0), turned, PLAIN),
        row((7, 0), image, PLAIN),
    ]
}

/// Buckets of cycles of one bucket and of two, their last ones: behind them is a start,
/// to which they send tag 5.
fn last_buckets() -> [Vec<u8>; 2] {
    [0, 1].map(|position| index([position, 1, 1], &[], &[(5, 1)]).into())
}

/// A listener for tag 5 is given these buckets, None for a lost one, and refuses the
/// last of them.
fn refused(buckets: &[Option<&[u8]>]) -> Told {
    let mut both = Both::new(5);
    let answers: Vec<Answer> = buckets.iter().map(|&bucket| both.give(bucket).0).collect();
    match answers[..] {
        [.., Answer::Refused(number)] => (number, 0),
        _ => panic!("{answers:?}"),
    }
}

fn stepping() -> Rows {
    let [one, two] = &last_buckets();
    let [one, two, blanks] = [one, two, BLANKS].map(Some);
    vec![
        ((14, 0), refused(&[one, blanks, blanks])),
        ((8, 0), refused(&[one, blanks])),
        ((9, 0), refused(&[one, two])),
        ((10, 0), refused(&[one, one])),
    ]
}

fn losing() -> Rows {
    vec![((14, 0), refused(&[Some(BLANKS), None]))]
}

fn looking_up() -> Rows {
    let [one, two] = &last_buckets();
    let misprinted = &[one, BLANKS].concat();
    let row = |due, image: &[u8], tune_in| {
        let found = lookup(image, 5, tune_in, SHORT_LINE);
        (due, (found.number, found.place))
    };
    vec![
        row((11, 0), &misprinted[1..], 2),
        row((12, 0), misprinted, 2),
        row((8, 1), misprinted, 0),
        row((9, 1), &[&one[..], two].concat(), 0),
        row((10, 1), &[&one[..], one].concat(), 0),
        row((7, 0), &image(), 0),
    ]
}

fn line() -> Rows {
    let line = lines::compare(BLANKS, 0);
    vec![((8, 0), (line.number, line.place))]
}
