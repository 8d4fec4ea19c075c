//! Lists and damage for tests and measurements, the same for the same seed.

use crate::bucket::BUCKET;
use crate::line::{LINE, MAX_TAG};

/// An xorshift generator.
pub struct Random(u64);

impl Random {
    pub fn new(seed: u64) -> Random {
        let mut random = Random(seed ^ 0x9e37_79b9_7f4a_7c15);
        if random.0 == 0 {
            random.0 = 1;
        }
        for _ in 0..8 {
            random.draw();
        }
        random
    }

    fn draw(&mut self) -> u64 {
        self.0 ^= self.0 << 13;
        self.0 ^= self.0 >> 7;
        self.0 ^= self.0 << 17;
        self.0
    }

    /// A number below `limit`, which is not 0.
    pub fn below(&mut self, limit: u64) -> u64 {
        (self.draw() >> 16) % limit
    }

    /// A number of any length below `limit`: small ones, 0 too, come often.
    pub fn figure(&mut self, limit: u64) -> u64 {
        let digits = self.below(limit.ilog10() as u64 + 2);
        self.below(limit.min(10u64.pow(digits as u32)))
    }

    pub fn pick<T: Copy>(&mut self, choices: &[T]) -> T {
        choices[self.below(choices.len() as u64) as usize]
    }
}

/// A printed list line.
pub fn line(tag: u64, tare: u64, material: u64, number: u64) -> String {
    format!("{tag:>10}{tare:>6}{material:>4}{number:>6}\n")
}

/// A list of these tags, the other figures 0.
pub fn list_of(tags: &[u64]) -> Vec<u8> {
    tags.iter().flat_map(|&tag| line(tag, 0, 0, 0).into_bytes()).collect()
}

/// A valid list; each tag is from 0 to `spread` above the one before it, the
/// first one that much above `start`.
pub fn list_from(random: &mut Random, lines: u64, start: u64, spread: u64) -> Vec<u8> {
    let mut tag = start;
    let mut list = Vec::new();
    for _ in 0..lines {
        tag = MAX_TAG.min(tag + random.below(spread + 1));
        let tare = random.figure(100_000);
        let material = random.figure(10_000);
        let number = random.figure(1_000_000);
        list.extend(line(tag, tare, material, number).bytes());
    }
    list
}

/// A valid list from tag 0 on.
pub fn list(random: &mut Random, lines: u64, spread: u64) -> Vec<u8> {
    list_from(random, lines, 0, spread)
}

/// A list as a yard has it: tags of seven digits, tares of four or five, codes
/// of three, weighing numbers in order.
pub fn yard_list(random: &mut Random, lines: u64) -> Vec<u8> {
    let mut tag = 1_000_000;
    let mut list = Vec::new();
    for weighing in 0..lines {
        tag += random.below(40);
        let tare = 8_000 + random.below(17_000);
        list.extend(line(tag, tare, 100 + random.below(900), 100_000 + weighing).bytes());
    }
    list
}

/// Where the fields of a line start, and where they end.
pub const FIELDS: [(usize, usize); 4] = [(0, 10), (10, 16), (16, 20), (20, 26)];

/// A list with leading zeros: "all columns full of zeros", or in some fields of
/// some lines, "blanks before them or none", or nowhere.
pub fn with_zeros(random: &mut Random, list: &[u8]) -> Vec<u8> {
    match random.below(4) {
        0 => list.to_vec(),
        1 => full_of_zeros(list),
        _ => some_zeros(random, list),
    }
}

/// A zero in the place of each blank.
pub fn full_of_zeros(list: &[u8]) -> Vec<u8> {
    list.iter().map(|&byte| if byte == b' ' { b'0' } else { byte }).collect()
}

/// Zeros in the place of some blanks before the numbers of half of the lines.
pub fn some_zeros(random: &mut Random, list: &[u8]) -> Vec<u8> {
    let mut list = list.to_vec();
    for line in list.chunks_exact_mut(LINE) {
        let padded = random.below(2) == 0;
        for (from, to) in FIELDS.into_iter().filter(|_| padded) {
            let blanks = line[from..to].iter().take_while(|&&byte| byte == b' ').count();
            let kept = random.below(blanks as u64 + 1) as usize;
            line[from + kept..from + blanks].fill(b'0');
        }
    }
    list
}

/// Alters one byte; the new one is mostly a byte that some column allows.
pub fn alter(random: &mut Random, bytes: &mut [u8]) {
    let at = random.below(bytes.len() as u64) as usize;
    let old = bytes[at];
    while bytes[at] == old {
        bytes[at] = match random.below(8) {
            0 => random.below(256) as u8,
            1 | 2 => random.pick(b" \nID0\0:/"),
            3 => b' ',
            _ => b'0' + random.below(10) as u8,
        };
    }
}

/// Every byte of some bytes, altered in turn to each of 256 and set back.
pub fn each_alteration(bytes: &[u8], mut check: impl FnMut(&[u8])) {
    let mut altered = bytes.to_vec();
    for place in 0..bytes.len() {
        for byte in 0..=255 {
            altered[place] = byte;
            check(&altered);
        }
        altered[place] = bytes[place];
    }
}

/// A field that is blank, full of zeros, has a blank behind or among its digits,
/// or has a sign.
fn damage_field(random: &mut Random, line: &mut [u8]) {
    let (from, to) = random.pick(&FIELDS);
    let field = &mut line[from..to];
    let at = random.below(field.len() as u64) as usize;
    match random.below(6) {
        0 => field.fill(b' '),
        1 => field.fill(b'0'),
        2 => field.rotate_left(1),
        3 => field[at] = b' ',
        4 => field[at] = random.pick(b"+-"),
        _ => {
            field.fill(b'0');
            field[at] = b' ';
        }
    }
}

/// A damaged variant of a list: refused as a rule, though not always.
pub fn damaged_list(random: &mut Random, list: &[u8]) -> Vec<u8> {
    let mut list = list.to_vec();
    if list.is_empty() {
        return vec![b'\n'];
    }
    let lines = (list.len() / LINE) as u64;
    let at = random.below(lines) as usize * LINE;
    let other = random.below(lines) as usize * LINE;
    match random.below(8) {
        // A cut or a longer list.
        0 => list.truncate(list.len() - 1 - random.below(LINE as u64 - 1) as usize),
        1 => list.push(random.pick(b" 0\n")),
        // Two lines change places.
        2 | 3 => (0..LINE).for_each(|i| list.swap(at + i, other + i)),
        // A tag or tare that is too large, or another field that is none.
        4 => {
            let tag = line(MAX_TAG + 1 + random.below(10), 0, 0, 0);
            let tare = line(0, 100_000 + random.below(10), 0, 0);
            let large = if random.below(2) == 0 { tag } else { tare };
            let large = with_zeros(random, large.as_bytes());
            list[at..at + LINE].copy_from_slice(&large);
        }
        5 => damage_field(random, &mut list[at..at + LINE]),
        _ => alter(random, &mut list),
    }
    list
}

/// A damaged variant of an image.
pub fn damaged_image(random: &mut Random, image: &[u8]) -> Vec<u8> {
    let mut image = image.to_vec();
    let buckets = (image.len() / BUCKET) as u64;
    let at = random.below(buckets) as usize * BUCKET;
    let other = random.below(buckets) as usize * BUCKET;
    match random.below(12) {
        // Pointers lead elsewhere, a few of them past the next cycle's start.
        0 | 1 => {
            let index = |bucket: &(u64, &mut [u8])| bucket.1[24] == b'I';
            for (place, bucket) in (0..).zip(image.chunks_exact_mut(BUCKET)).filter(index) {
                for (count, start) in [(26, 39), (28, 103)] {
                    let count = bucket[count].saturating_sub(b'0').min(8) as usize;
                    for i in 0..count.min((BUCKET - start) / 16) {
                        let most = if random.below(20) == 0 { buckets } else { buckets - place };
                        let distance = format!("{:>6}", 1 + random.below(most));
                        bucket[start + 16 * i..][..6].copy_from_slice(distance.as_bytes());
                    }
                }
            }
        }
        // A bucket is missing, comes twice, or stands in another's place.
        2 => drop(image.drain(at..at + BUCKET)),
        3 => image.extend_from_within(at..at + BUCKET),
        4 => image.copy_within(at..at + BUCKET, other),
        // Each bucket lies one place on.
        5 => image.rotate_right(BUCKET),
        // A field is replaced by another field of its width, or by a number.
        6 | 7 => {
            let field = 6 * random.below(4) as usize;
            let from = 6 * random.below(4) as usize;
            image.copy_within(other + from..other + from + 6, at + field);
        }
        8 => {
            let number = format!("{:>6}", random.below(2 * buckets + 2));
            let field = random.pick(&[0, 6, 12, 18, 39, 55, 71, 103, 119, 135, 151]);
            image[at + field..at + field + 6].copy_from_slice(number.as_bytes());
        }
        // A few bytes are altered.
        _ => (0..1 + random.below(3)).for_each(|_| alter(random, &mut image)),
    }
    image
}
