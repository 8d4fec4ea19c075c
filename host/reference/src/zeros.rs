//! Lists with leading zeros, and what document 02, C-13, says of them; for tests
//! of reference and library.

use crate::generate::{full_of_zeros, list, list_from, list_of, some_zeros, Random, FIELDS};
use crate::yards::{damaged_building, image_of, legal_settings, Settings, SMALL};
use crate::{blanked, Refusal};

/// Settings of a short list, and room for its image.
const SHORT: Settings = [2, 1, 1, 0];
const ROOM: usize = 240 * 20;

/// Building and reading back into a buffer of so many bytes: what is written
/// there, or the refusal.
pub struct Calls {
    pub build: Call,
    pub read_back: Call,
}

pub type Call = fn(&[u8], Settings, usize) -> Result<Vec<u8>, Refusal>;

impl Calls {
    /// Lists that are accepted, and lists that are not.
    pub fn lists(&self) {
        self.accepted();
        self.damaged();
        self.fields();
        self.tags();
    }

    /// "A list read back from an image is the list with its leading zeros made
    /// blank, and building either gives the same image", or the same refusal.
    pub fn round(&self, list: &[u8], settings: Settings, room: usize) -> Result<Vec<u8>, Refusal> {
        let blanked = blanked(list);
        let built = (self.build)(list, settings, room);
        assert!(built == (self.build)(&blanked, settings, room), "{settings:?}, {list:?}");
        if let Ok(image) = &built {
            assert!((self.read_back)(image, settings, list.len()) == Ok(blanked), "{list:?}");
        }
        built
    }

    /// Lists with zeros in some fields, and full of them.
    fn accepted(&self) {
        let random = &mut Random::new(1);
        for lines in (0..=40).flat_map(|lines| [lines; 20]) {
            let start = random.pick(&[0, 0, 4_294_967_000]);
            let spread = random.pick(&[0, 1, 2, 100, 100_000_000]);
            let list = list_from(random, lines, start, spread);
            let settings = legal_settings(random, lines);
            let image = image_of(&list, settings);
            for zeros in [some_zeros(random, &list), full_of_zeros(&list)] {
                assert!(blanked(&zeros) == list);
                assert!(self.round(&zeros, settings, image.len()).as_ref() == Ok(&image));
                let short = self.round(&zeros, settings, image.len() - 1);
                assert_eq!(short, Err(Refusal::of(7)));
            }
        }
    }

    /// The longest list.
    pub fn longest(&self) {
        let random = &mut Random::new(4);
        let list = list(random, 40_000, 3);
        for zeros in [some_zeros(random, &list), full_of_zeros(&list)] {
            for settings in [[2, 1, 1, 4], [8, 8, 2, 128]] {
                assert!(self.round(&zeros, settings, 240 * 99_999).is_ok());
            }
        }
    }

    /// Damaged lists, by what they are refused.
    fn damaged(&self) {
        let random = &mut Random::new(2);
        let mut refused = [0; 15];
        for _ in 0..20_000 {
            let (list, settings, room) = damaged_building(random);
            let built = self.round(&list, settings, room);
            refused[built.map_or_else(|refusal| refusal.number as usize, |_| 0)] += 1;
        }
        for number in [0, 1, 2, 3, 4, 5, 7] {
            assert!(refused[number] > 100, "{refused:?}");
        }
    }

    /// What is read in each field of a line, and what is refused by 3.
    fn fields(&self) {
        for (from, to) in FIELDS {
            let width = to - from;
            for number in [0, 7, 70, 9_999] {
                for digits in 1..=width {
                    let zeros = format!("{number:0digits$}");
                    self.field(from, &format!("{zeros:>width$}"), Some(number));
                }
            }
            for none in ["", "7 ", "00 ", "0 7", "7 00", "-07", "0-7", "+7", "0x7", "00.7"] {
                self.field(from, &format!("{none:>width$}"), None);
            }
        }
        for (from, printed, number) in [
            (0, "0429496729", Some(429_496_729)),
            (0, "4294967295", Some(4_294_967_295)),
            (0, "4294967296", None),
            (0, "9999999999", None),
            (10, "099999", Some(99_999)),
            (10, "100000", None),
            (16, "9999", Some(9_999)),
            (20, "999999", Some(999_999)),
        ] {
            self.field(from, printed, number);
        }
    }

    /// A line of zeros but for one field.
    fn field(&self, from: usize, printed: &str, number: Option<u64>) {
        let line = |field: &str| {
            let mut line = list_of(&[0]);
            line[from..][..printed.len()].copy_from_slice(field.as_bytes());
            line
        };
        let built = self.round(&line(printed), SHORT, ROOM);
        match number {
            Some(number) => {
                let plain = line(&format!("{number:>0$}", printed.len()));
                assert!(blanked(&line(printed)) == plain, "{printed}");
                assert!(built == Ok(image_of(&plain, SHORT)), "{printed}");
            }
            None => {
                assert!(blanked(&line(printed)) == line(printed), "{printed}");
                assert_eq!(built, Err(Refusal::of(3)), "{printed}");
            }
        }
    }

    /// Tags go by their numbers, in 4 and in follow-ons; 3 comes before 4.
    fn tags(&self) {
        let built = |tags: &[&str]| {
            let line = |tag: &&str| format!("{tag:>10}     0   0     0\n").into_bytes();
            self.round(&tags.iter().flat_map(line).collect::<Vec<u8>>(), SHORT, ROOM)
        };
        let equal = image_of(&list_of(&[7, 7, 7, 8]), SHORT);
        assert!(built(&["7", "0000000007", "007", "08"]) == Ok(equal));
        let falls = Err(Refusal { number: 4, place: 2 });
        assert_eq!(built(&["5", "0000000009", "08", "0000000003"]), falls);
        let misprinted = Err(Refusal { number: 3, place: 2 });
        assert_eq!(built(&["0000000009", "08", "0 8"]), misprinted);
    }
}

/// "Buckets stay strict": small images with a leading zero in one field, each
/// with the settings and the place of the bucket.
pub fn each_zero_on_air(mut check: impl FnMut(&[u8], Settings, usize)) {
    let random = &mut Random::new(3);
    for (lines, settings) in SMALL {
        let mut image = image_of(&list(random, lines, 2), settings);
        for at in 0..image.len() - 1 {
            if image[at] == b' ' && image[at + 1].is_ascii_digit() {
                image[at] = b'0';
                check(&image, settings, at / 240);
                image[at] = b' ';
            }
        }
    }
}
