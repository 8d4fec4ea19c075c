//! The sample yard and the examples of the refusal table.

mod common;

use common::{build_into, change_into, lookup_into, read_back_into};
use reference::generate::{line, list_of};
use reference::skips::Given;
use reference::{arrive, mean, size, take_out};
use reference::{Answer, Changed, Listener, Looked, Mean, Refusal, Size};

const S: [u64; 5] = [3, 5, 5, 8, 9];
const ROOM: usize = 240 * 100;

fn built(tags: &[u64], layout: u64, copies: u64) -> Result<usize, Refusal> {
    build_into(&list_of(tags), [2, 1, layout, copies], ROOM).map(|image| image.len() / 240)
}

fn image(tags: &[u64], copies: u64) -> Vec<u8> {
    build_into(&list_of(tags), [2, 1, 1, copies], ROOM).unwrap()
}

fn refused<T>(number: u64) -> Result<T, Refusal> {
    Err(Refusal { number, place: 0 })
}

/// Found, heard, elapsed and lines.
fn looked(image: &[u8], tag: u64, tune_in: u64) -> (bool, u64, u64, u64) {
    let (Looked { found, heard, elapsed, lines }, list) =
        lookup_into(image, tag, tune_in, 1_000).unwrap();
    assert_eq!(list, list_of(&vec![tag; lines as usize]));
    (found, heard, elapsed, lines)
}

#[test]
fn p1_to_p5() {
    assert_eq!(built(&S, 1, 0), Ok(11));
    assert_eq!(built(&S, 1, 1), Ok(12));
    assert_eq!(built(&S, 1, 2), Ok(13));
    assert_eq!(built(&S, 1, 3), refused(5));
    assert_eq!(built(&S, 2, 2), Ok(17));
    let image = build_into(&list_of(&S), [2, 1, 2, 2], ROOM).unwrap();
    let letters: String = image.chunks(240).map(|bucket| bucket[24] as char).collect();
    assert_eq!(letters, "IIIIIIDDIIIIIIDDD");
    assert!(built(&S, 2, 5).is_ok());
    assert_eq!(built(&S, 2, 6), refused(5));
    assert_eq!(built(&[], 1, 0), Ok(1));
    let empty = build_into(&[], [2, 1, 1, 0], ROOM).unwrap();
    for tag in [0, 1, 5, 4_294_967_295] {
        assert_eq!(looked(&empty, tag, 0), (false, 2, 2, 0));
    }
}

/// The same from a number of lines.
#[test]
fn sizes() {
    let sized = |lines, layout, copies, c| size(lines, 2, 1, layout, copies, c);
    for (copies, n) in [(0, 11), (1, 12), (2, 13)] {
        let figures = Size { k: 3, d: 5, n, bytes: 240 * n, heard: 7 };
        assert_eq!(sized(5, 1, copies, 2), Ok(figures));
    }
    assert_eq!(sized(5, 1, 3, 2), refused(5));
    assert_eq!(sized(5, 2, 2, 0), Ok(Size { k: 3, d: 5, n: 17, bytes: 4_080, heard: 6 }));
    assert_eq!(sized(5, 2, 2, 9), Ok(Size { k: 3, d: 5, n: 17, bytes: 4_080, heard: 10 }));
    assert_eq!(sized(5, 2, 6, 0), refused(5));
    assert_eq!(sized(0, 1, 0, 9), Ok(Size { k: 1, d: 0, n: 1, bytes: 240, heard: 4 }));
}

#[test]
fn p6_to_p11() {
    let s = image(&S, 1);
    assert_eq!(looked(&s, 5, 0), (true, 7, 19, 2));
    assert_eq!(looked(&s, 6, 7), (false, 6, 13, 0));
    assert_eq!(looked(&s, 10, 3), (false, 2, 6, 0));
    assert_eq!(looked(&s, 9, 0), (true, 5, 12, 1));
    assert_eq!(looked(&s, 3, 8), (true, 5, 9, 1));
    let eight = image(&[1, 2, 3, 5, 5, 5, 7, 8], 2);
    assert_eq!(eight.len() / 240, 18);
    assert_eq!(looked(&eight, 5, 12), (true, 8, 20, 3));
}

#[test]
fn table() {
    let s = image(&S, 1);
    let mut table = String::new();
    for tune_in in 0..12 {
        let (found, heard, elapsed, lines) = looked(&s, 5, tune_in);
        assert!(found);
        table += &format!("{tune_in:>6}{heard:>6}{elapsed:>6}{lines:>6}\n");
    }
    assert_eq!(table, include_str!("../../sample/table"));
}

/// Document 01's example of 3, which C-13 takes out of it: a tag printed 007.
#[test]
fn leading_zeros() {
    let mut list = list_of(&S);
    list[27 * 3 + 7..27 * 3 + 10].copy_from_slice(b"007");
    let plain = [3, 5, 5, 7, 9];
    assert!(build_into(&list, [2, 1, 1, 1], ROOM) == Ok(image(&plain, 1)));
    assert!(read_back_into(&image(&plain, 1), [2, 1, 1, 1], ROOM) == Ok(list_of(&plain)));
}

/// A line arrives behind the two of its tag; the first of these is taken out by
/// its numbers, printed with leading zeros.
#[test]
fn skips() {
    let new = line(5, 7, 0, 0);
    let zeros = b"00000000050000000000000000\n";
    let given = |lines, line| Given { lines, line, settings: [2, 1, 1, 1], room: ROOM };
    let list = &mut [&list_of(&S)[..], &[b'.'; 30]].concat();
    let (changed, _) = change_into(arrive, list, given(5, new.as_bytes())).unwrap();
    assert_eq!(changed, Changed { lines: 6, d: 6, k: 3, n: 13 });
    let parts = [&list_of(&[3, 5, 5])[..], new.as_bytes(), &list_of(&[8, 9])];
    assert!(*list == [&parts.concat()[..], b"..."].concat());
    let (changed, _) = change_into(take_out, list, given(6, zeros)).unwrap();
    assert_eq!(changed, Changed { lines: 5, d: 5, k: 3, n: 12 });
    let parts = [&list_of(&[3, 5])[..], new.as_bytes(), &list_of(&[8, 9])];
    assert!(*list == [&parts.concat()[..], &[b' '; 27], b"..."].concat());
}

/// Of list S: with r 1 tag 5 adds what the table has, 162, and tags 3, 8 and 9 add
/// 138, 174 and 126.
#[test]
fn mean_wait() {
    let averaged = |tags: &[u64], layout, copies| mean(&list_of(tags), 2, 1, layout, copies);
    for (layout, copies, [sum, divisor, quotient, remainder]) in [
        (1, 0, [671, 11 * 4, 15, 11]),
        (1, 1, [138 + 162 + 174 + 126, 12 * 4, 12, 24]),
        (2, 2, [1_275, 17 * 4, 18, 51]),
    ] {
        let wait = Mean { sum, divisor, quotient, remainder };
        assert_eq!(averaged(&S, layout, copies), Ok(wait));
    }
    assert_eq!(averaged(&S, 1, 3), refused(5));
    assert_eq!(averaged(&[], 1, 0), refused(17));
}

#[test]
fn refused_inputs() {
    let list = list_of(&S);
    let s = image(&S, 1);
    assert_eq!(s.len(), 240 * 12);
    assert_eq!(build_into(&list, [9, 1, 1, 1], ROOM), refused(1));
    assert_eq!(build_into(&[b' '; 28], [2, 1, 1, 1], ROOM), refused(2));
    let mut blank = list.clone();
    blank[9] = b' ';
    assert_eq!(build_into(&blank, [2, 1, 1, 1], ROOM), refused(3));
    let falling = list_of(&[5, 3]);
    let place_1 = Err(Refusal { number: 4, place: 1 });
    assert_eq!(build_into(&falling, [2, 1, 1, 0], ROOM), place_1);
    assert_eq!(build_into(&list, [2, 1, 1, 3], ROOM), refused(5));
    assert_eq!(build_into(&list, [2, 1, 1, 1], 2_879), refused(7));
    assert_eq!(Listener::new(5).step(&s[..239]).1, Answer::Refused(8));
    // Position 5 where another is due.
    let listener = Listener::new(5).step(&s[..240]).0;
    assert_eq!(listener.step(&s[240 * 5..240 * 6]).1, Answer::Refused(9));
    let round = format!("{:<93}{:>10}{:>6}{:>131}", "     0     1     1     0I 0 1", 5, 1, "\n");
    assert_eq!(lookup_into(round.as_bytes(), 5, 0, ROOM), Err(Refusal { number: 10, place: 0 }));
    assert_eq!(read_back_into(&[], [2, 1, 1, 1], ROOM), refused(11));
    assert_eq!(lookup_into(&s, 5, 12, ROOM), Err(Refusal { number: 12, place: 0 }));
    let mut altered = s.clone();
    assert_eq!(&altered[93..109], b"         8     1");
    altered[102] = b'7';
    assert_eq!(read_back_into(&altered, [2, 1, 1, 1], ROOM), refused(13));
    let (mut listener, mut place) = (Listener::new(9), 0);
    loop {
        let (next, answer, _, _) = listener.step(&s[240 * place..][..240]);
        listener = next;
        match answer {
            Answer::Doze(distance) => place = (place + distance as usize) % 12,
            _ => break assert_eq!(answer, Answer::Found),
        }
    }
    assert_eq!(listener.step(b""), (listener, Answer::Refused(14), 0, 0));
    let four = &list_of(&[4])[..];
    let given = Given { lines: 5, line: four, settings: [2, 1, 1, 1], room: ROOM };
    assert_eq!(change_into(take_out, &mut list.clone(), given), refused(15));
    assert_eq!(change_into(arrive, &mut list.clone(), given), refused(16));
}
