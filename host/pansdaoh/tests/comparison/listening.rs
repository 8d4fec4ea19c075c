use pansdaoh::calls::{self, State, Step};
use reference::air::losses::{self, stopped};
use reference::air::{hear_bounds, hear_changing, Hears};
use reference::generate::{alter, each_alteration, list, Random};
use reference::yards::{damaged_cycle, image_of};
use reference::{Answer, Listener};

/// A listener of each side.
#[derive(Clone)]
pub struct Both {
    /// The library's state, with other numbers around it.
    numbers: [u64; 12],
    reference: Listener,
}

const AROUND: u64 = 0x5a5a_0123_4567_89ab;

impl Both {
    pub fn new(tag: u64) -> Both {
        let mut both = Both { numbers: [AROUND; 12], reference: Listener::new(tag) };
        calls::start(both.state(), tag);
        both.check_counts();
        both
    }

    /// The same with other counts, which are the state's last two numbers.
    fn with_counts(tag: u64, heard: u64, elapsed: u64) -> Both {
        let mut both = Both::new(tag);
        both.state()[6..].copy_from_slice(&[heard, elapsed]);
        both.reference = both.reference.with_counts(heard, elapsed);
        both.check_counts();
        both
    }

    fn state(&mut self) -> &mut State {
        (&mut self.numbers[2..10]).try_into().unwrap()
    }

    fn check_counts(&mut self) {
        let counts = (self.reference.heard(), self.reference.elapsed());
        let state = self.state();
        assert_eq!((calls::heard(state), calls::elapsed(state)), counts);
        assert_eq!([&self.numbers[..2], &self.numbers[10..]], [[AROUND; 2]; 2]);
    }

    fn step(&mut self, bucket: &[u8]) -> Answer {
        self.hear(bucket).0
    }

    /// What the reference handed back, and what the library did.
    fn compare(
        &mut self,
        (next, answer, first, count): (Listener, Answer, u64, u64),
        call: impl Fn(&mut State) -> Step,
    ) -> (Answer, u64, u64) {
        self.reference = next;
        let (kind, value) = match answer {
            Answer::Doze(distance) => (1, distance),
            Answer::Found => (2, 0),
            Answer::Absent => (3, 0),
            Answer::Refused(number) => (4, number),
        };
        let before = *self.state();
        let step = call(self.state());
        assert_eq!(step, Step { answer: kind, value, first, count });
        match answer {
            Answer::Doze(_) => {}
            Answer::Refused(14) => assert_eq!(*self.state(), before),
            _ => assert_eq!(self.state()[..6], ended(before)[..6]),
        }
        self.check_counts();
        (answer, first, count)
    }
}

impl Hears for Both {
    fn hear(&mut self, bucket: &[u8]) -> (Answer, u64, u64) {
        let given = bucket.to_vec();
        let answer = self.compare(self.reference.step(bucket), |state| calls::step(state, &given));
        assert!(given == bucket, "the bucket was touched");
        answer
    }

    fn lose(&mut self) -> (Answer, u64, u64) {
        let answer = self.compare(self.reference.lost(), calls::lost);
        if answer.0 != Answer::Refused(14) {
            // But for its counts it is a listener that was just started.
            let (tag, (heard, elapsed)) = (self.state()[0], self.counts());
            assert_eq!(self.numbers, Both::with_counts(tag, heard, elapsed).numbers);
        }
        answer
    }

    fn counts(&self) -> (u64, u64) {
        self.reference.counts()
    }
}

/// Lists and settings that change from cycle to cycle.
#[test]
fn changing_lists() {
    hear_changing(Both::new);
}

#[test]
fn bounds_of_8_to_10() {
    hear_bounds(Both::new);
}

#[test]
fn lost_buckets() {
    losses::hear_unchanged(Both::new);
}

#[test]
fn lost_buckets_of_changing_lists() {
    losses::hear_changing(Both::new);
}

#[test]
fn answers_to_lost_buckets() {
    losses::hear_ways(Both::new);
}

#[test]
fn counts_stop() {
    losses::hear_near_stop(Both::with_counts);
}

/// The step of a doze, then on round the image.
fn next_place(place: usize, answer: Answer, buckets: usize) -> usize {
    match answer {
        Answer::Doze(distance) => (place + distance as usize) % buckets,
        _ => place,
    }
}

/// Hearings on the awaited bucket, another or a lost one, over damaged images too,
/// and on after the end.
#[test]
fn hearings() {
    let random = &mut Random::new(1);
    // Buckets, and lost ones, that were refused.
    let (mut refused, mut lost) = ([0; 15], 0);
    for _ in 0..30_000 {
        let image = damaged_cycle(random, 20, 3);
        let mut both = Both::new(random.below(24));
        losses::wander(random, &image, |bucket| {
            let (answer, ..) = both.give(bucket);
            match answer {
                Answer::Refused(_) if bucket.is_none() => lost += 1,
                Answer::Refused(number) => refused[number as usize] += 1,
                _ => {}
            }
            answer
        });
    }
    for number in [8, 9, 10, 14] {
        assert!(refused[number] > 100, "{refused:?}");
    }
    assert!(lost > 100, "{lost}");
}

/// Each byte of a bucket of every kind, altered to each of 256, heard at
/// tune-in and when awaited.
#[test]
fn single_bytes() {
    let random = &mut Random::new(2);
    for (lines, settings, tag) in
        [(9, [2, 1, 1, 2], 3), (60, [8, 8, 2, 3], 17), (20, [3, 2, 1, 1], 5), (3, [2, 1, 2, 2], 1)]
    {
        let list = list(random, lines, 1);
        let image = image_of(&list, settings);
        let buckets = image.len() / 240;
        let (mut both, mut place) = (Both::new(tag), buckets / 2);
        loop {
            let bucket = &image[240 * place..][..240];
            each_alteration(bucket, |altered| {
                both.clone().step(altered);
            });
            let answer = both.step(bucket);
            place = next_place(place, answer, buckets);
            if !matches!(answer, Answer::Doze(_)) {
                break;
            }
        }
    }
}

/// Single buckets with numbers at the bounds of their ranges.
#[test]
fn bounds_of_a_bucket() {
    let numbers = [0, 1, 2, 49_999, 50_000, 99_998, 99_999, 100_000, 100_001, 999_999];
    for position in numbers {
        for to_cycle in numbers {
            for other in numbers {
                for (letter, segment, follow_on) in
                    [('I', other, 0), ('I', 1, other), ('D', other, 0), ('D', 1, other)]
                {
                    let line = format!(" 0 1{:>10}     0   0     0", 5);
                    let body = if letter == 'I' { " 0 0" } else { &line };
                    let head = format!("{position:>6}{to_cycle:>6}{segment:>6}{follow_on:>6}");
                    let bucket = format!("{:<239}\n", head + &letter.to_string() + body);
                    Both::new(5).step(bucket.as_bytes());
                }
            }
        }
    }
}

/// Buckets of every length up to 500.
#[test]
fn any_length() {
    let image = image_of(&list(&mut Random::new(3), 9, 1), [2, 1, 1, 1]);
    for length in 0..500 {
        let mut both = Both::new(4);
        both.step(&image[..length]);
        both.step(&image[240..240 + length]);
    }
}

/// A state of any content is answered.
#[test]
fn any_state() {
    let random = &mut Random::new(4);
    let image = image_of(&list(random, 20, 1), [2, 2, 1, 1]);
    let buckets = image.len() / 240;
    // Doze, found, absent and refused.
    let mut seen = [0; 5];
    for round in 0..200_000 {
        let mut place = random.below(buckets as u64) as usize;
        // Any numbers, or those of a listener on its way with some of them altered.
        let mut state: State = std::array::from_fn(|_| any_number(random));
        if round % 2 == 0 {
            calls::start(&mut state, random.below(20));
            for _ in 0..random.below(8) {
                let step = calls::step(&mut state, &image[240 * place..][..240]);
                place = (place + step.value as usize) % buckets;
            }
            for _ in 0..1 + random.below(3) {
                state[random.below(8) as usize] = any_number(random);
            }
        }
        for _ in 0..3 {
            let mut bucket = image[240 * place..][..240].to_vec();
            if random.below(4) == 0 {
                alter(random, &mut bucket);
            }
            let lost = lose_any(state);
            let step = step_any(&mut state, &bucket);
            seen[step.answer as usize] += 1;
            if random.below(4) == 0 {
                state = lost;
            }
            place = (place + step.value as usize) % buckets;
        }
    }
    assert!(seen[1..].iter().all(|&times| times > 100), "{seen:?}");
}

/// The numbers of a state that tell whether it has ended, and the doze to the
/// bucket at hand; those of the counts stand last.
const PHASE: usize = 1;
const DOZE: usize = 5;

/// The same state, ended.
fn ended(mut state: State) -> State {
    state[PHASE] = 4;
    state
}

/// Both counts of a state, and what they are with one bucket more.
fn counts_of(state: &State) -> [(u64, u64); 2] {
    let (heard, elapsed) = (calls::heard(state), calls::elapsed(state));
    assert_eq!([heard, elapsed], state[6..]);
    [(heard, elapsed), (stopped(heard, 1), stopped(elapsed, state[DOZE]))]
}

/// Any state is given a lost bucket; returns the state after it.
fn lose_any(before: State) -> State {
    let [_, (heard, elapsed)] = counts_of(&before);
    let mut state = before;
    let step = calls::lost(&mut state);
    let (answer, value, after) = match before[PHASE] {
        0..4 => (calls::STEP_DOZE, 1, [before[0], 0, 0, 0, 0, 1, heard, elapsed]),
        _ => (calls::STEP_REFUSED, 14, before),
    };
    assert_eq!(step, Step { answer, value, first: 0, count: 0 }, "{before:?}");
    assert_eq!(state, after, "{before:?}");
    state
}

/// Any state is given a bucket. 14 is the answer of an ended one alone, 8 to 10 end it
/// and leave the rest as it is, and no answer hangs on the counts.
fn step_any(state: &mut State, bucket: &[u8]) -> Step {
    let before = *state;
    let [counts, counts_with] = counts_of(&before);
    let step = calls::step(state, bucket);
    assert!(step.first + step.count <= 8, "{before:?}");
    let mut small = before;
    small[6..].fill(0);
    assert_eq!(calls::step(&mut small, bucket), step, "{before:?}");
    assert_eq!(small[..6], state[..6], "{before:?}");
    let is_ended = before[PHASE] >= 4;
    match step.answer {
        calls::STEP_DOZE..=calls::STEP_ABSENT => {
            assert!(!is_ended && counts_of(state)[0] == counts_with, "{before:?}");
        }
        calls::STEP_REFUSED if is_ended => assert_eq!((step.value, *state), (14, before)),
        calls::STEP_REFUSED => {
            assert!((8..=10).contains(&step.value), "{before:?} {step:?}");
            assert_eq!(counts_of(state)[0], counts, "{before:?}");
            assert_eq!(*state, ended(before), "{before:?}");
        }
        _ => panic!("{before:?} {step:?}"),
    }
    step
}

fn any_number(random: &mut Random) -> u64 {
    let large = random.below(1 << 32) << 32 | random.below(1 << 32);
    let small = random.below(30);
    random.pick(&[small, small, small, large, u64::MAX - small, (1 << 32) - 2 + small % 4])
}
