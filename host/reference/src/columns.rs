//! "Printed numbers": right-justified, blanks, then digits, no leading zero. In
//! a list line leading zeros may stand in the place of blanks (C-13).
//!
//! Up to eight columns are taken as one word, the first column in its lowest
//! byte, the last one in its highest.

pub const BLANK: u8 = b' ';
/// The bit that a 0 has and a blank has not; each digit has it.
const ZERO_BIT: u8 = b'0' ^ BLANK;

/// The byte in each of the eight columns of a word.
const fn each(byte: u8) -> u64 {
    u64::from_le_bytes([byte; 8])
}

/// The numbers below 100 in two digits.
const TWO_DIGITS: [[u8; 2]; 100] = {
    let mut table = [[b'0'; 2]; 100];
    let mut i = 0;
    while i < 100 {
        table[i] = [b'0' + i as u8 / 10, b'0' + i as u8 % 10];
        i += 1;
    }
    table
};

/// Prints a number of at most six digits into columns that are blank already,
/// two digits at a time from the right.
#[inline(always)]
pub fn print(columns: &mut [u8; 6], number: u64) {
    let mut rest = number as u32;
    for two in columns.chunks_exact_mut(2).rev() {
        if rest < 10 {
            two[1] = b'0' + rest as u8;
            return;
        }
        two.copy_from_slice(&TWO_DIGITS[rest as usize % 100]);
        if rest < 100 {
            return;
        }
        rest /= 100;
    }
}

/// Reads the number printed in the W columns from `start` on, W at most 8;
/// None if it is misprinted.
#[inline(always)]
pub fn read<const W: usize>(bytes: &[u8], start: usize) -> Option<u64> {
    let (digits, wrong) = parse::<W>(bytes, start);
    (wrong == 0).then(|| value(digits))
}

/// Whether the W columns from `start` on print a number.
#[inline(always)]
pub fn is_number<const W: usize>(bytes: &[u8], start: usize) -> bool {
    parse::<W>(bytes, start).1 == 0
}

/// The digits in W columns, and bits that are all 0 if they print a number.
#[inline(always)]
fn parse<const W: usize>(bytes: &[u8], start: usize) -> (u64, u64) {
    let word = word::<W>(bytes, start);
    let (filled, blanks) = filled(word);
    let digits = filled ^ each(b'0');
    (digits, not_digits(digits) | (word ^ filled ^ blanks))
}

/// Makes the leading zeros in the W columns from `start` on blank, if these are
/// blanks and then digits up to the last one; any others stay as they are.
#[inline(always)]
pub fn blank_zeros<const W: usize>(bytes: &mut [u8], start: usize) {
    let word = word::<W>(bytes, start);
    let (filled, blanks) = filled(word);
    // Each blank stands in the place of a leading zero, behind blanks alone.
    let blank = word ^ filled;
    let misplaced = blank & !blanks | blank & !(blank << 8 | ZERO_BIT as u64);
    if not_digits(filled ^ each(b'0')) | misplaced == 0 {
        *at_mut(bytes, start) = *at::<W>(&(filled ^ blanks).to_le_bytes(), 8 - W);
    }
}

/// A word with a 0 for each of its blanks, and the bits that the blanks of a
/// printed number lack: blank are exactly the zeros before the first other
/// digit, and the last column always shows its digit.
#[inline(always)]
fn filled(word: u64) -> (u64, u64) {
    let filled = word | each(ZERO_BIT);
    let shown = (filled ^ each(b'0')) | 1 << 56;
    (filled, (shown ^ (shown - 1)) & each(ZERO_BIT))
}

/// Reads eight columns that all hold digits, leading zeros allowed.
#[inline(always)]
pub fn read_digits(bytes: &[u8], start: usize) -> Option<u64> {
    let digits = word::<8>(bytes, start) ^ each(b'0');
    (not_digits(digits) == 0).then(|| value(digits))
}

/// The W columns from `start` on as the last ones of a word, blanks before.
#[inline(always)]
fn word<const W: usize>(bytes: &[u8], start: usize) -> u64 {
    let end = start + W;
    let word = if end < 8 {
        u64::from_le_bytes(*at(bytes, 0)) << (64 - 8 * end)
    } else {
        u64::from_le_bytes(*at(bytes, end - 8))
    };
    let used = u64::MAX << (64 - 8 * W);
    word & used | each(BLANK) & !used
}

/// 0 exactly if each byte is from 0 to 9.
#[inline(always)]
fn not_digits(digits: u64) -> u64 {
    (digits.wrapping_add(each(0x80 - 10)) | digits) & each(0x80)
}

/// The value of eight digits: taken together by two, by four, by eight.
#[inline(always)]
fn value(digits: u64) -> u64 {
    let twos = (digits * 10 + (digits >> 8)) & 0x00ff_00ff_00ff_00ff;
    let fours = (twos * 100 + (twos >> 16)) & 0x0000_ffff_0000_ffff;
    (fours * 10_000 + (fours >> 32)) & 0xffff_ffff
}

/// The W columns from `at` on.
#[inline(always)]
pub fn at<const W: usize>(bytes: &[u8], at: usize) -> &[u8; W] {
    bytes[at..at + W].try_into().unwrap()
}

/// The W columns from `at` on, for writing.
#[inline(always)]
pub fn at_mut<const W: usize>(bytes: &mut [u8], at: usize) -> &mut [u8; W] {
    (&mut bytes[at..at + W]).try_into().unwrap()
}
