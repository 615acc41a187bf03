//! Comparing the film's calls with states and answers as numbers of any count, as they cross to C.
//!
//! Each case is a film, numbers for a state and for an answer, and what is lent; all five calls are made
//! with them. Whatever can be seen of each is compared: what it returns, every number of `from` and `out`,
//! and everything that is lent.

use crate::cases::chance;
use crate::{Proved, Second};
use maker::states::{self, Start};
use maker::Seeded;
use reference::film::Lent;
use reference::numbers::{numbers_of, STATE_NUMBERS, STEPPED_NUMBERS};
use std::collections::BTreeMap;
use std::fmt;

/// Anything that offers the film's calls by numbers. None may change `from`; it is lent for writing so
/// that one that does can be found out.
pub trait Boundary {
    /// What it is called in a report.
    fn name(&self) -> &'static str;

    /// Opens a film.
    fn open(&self, film: &[u8], stream: usize, out: &mut [usize]) -> usize;

    /// Opens a film and steps until there is a size.
    fn begin(&self, film: &[u8], stream: usize, lent: &mut Lending) -> usize;

    /// Takes a step.
    fn step(&self, film: &[u8], lent: &mut Lending, form: usize) -> usize;

    /// How many bytes are shown.
    fn shown(&self, lent: &mut Lending) -> usize;

    /// How many words are shown.
    fn shown_words(&self, lent: &mut Lending) -> usize;
}

/// The numbers and bytes that are lent to a call.
#[derive(Clone, Debug, PartialEq, Eq)]
pub struct Lending {
    /// The numbers that stand for a state.
    pub from: Vec<usize>,
    /// Where the answer goes.
    pub out: Vec<usize>,
    /// Palette, pictures, place, room and the stores allowed; its state is not looked at.
    pub start: Start,
}

impl Boundary for Proved {
    fn name(&self) -> &'static str {
        "proved library"
    }

    fn open(&self, film: &[u8], stream: usize, out: &mut [usize]) -> usize {
        mve::numbers::open(film, stream, out)
    }

    fn begin(&self, film: &[u8], stream: usize, lent: &mut Lending) -> usize {
        let Lending { out, start: Start { palette, place, .. }, .. } = lent;
        mve::numbers::begin(film, stream, out, palette, place)
    }

    fn step(&self, film: &[u8], lent: &mut Lending, form: usize) -> usize {
        let Lending { from, out, start } = lent;
        let Start { palette, picture_a: a, picture_b: b, place, room, words, allowed, .. } = start;
        let [c, d, e] = words;
        let pictures = &mut mve::Pictures { a, b, c, d, e };
        mve::numbers::step(film, from, out, palette, pictures, place, room, *allowed, form)
    }

    fn shown(&self, lent: &mut Lending) -> usize {
        let Start { picture_a, picture_b, .. } = &lent.start;
        mve::numbers::shown(&lent.from, picture_a, picture_b)
    }

    fn shown_words(&self, lent: &mut Lending) -> usize {
        let [c, d, e] = &lent.start.words;
        mve::numbers::shown_words(&lent.from, c, d, e)
    }
}

impl Boundary for Second {
    fn name(&self) -> &'static str {
        "second decoder"
    }

    fn open(&self, film: &[u8], stream: usize, out: &mut [usize]) -> usize {
        reference::numbers::open(film, stream, out)
    }

    fn begin(&self, film: &[u8], stream: usize, lent: &mut Lending) -> usize {
        let Lending { out, start: Start { palette, place, .. }, .. } = lent;
        reference::numbers::begin(film, stream, out, palette, place)
    }

    fn step(&self, film: &[u8], lent: &mut Lending, form: usize) -> usize {
        let Lending { from, out, start } = lent;
        let Start { palette, picture_a, picture_b, place, room, words, allowed, .. } = start;
        let words = words.each_mut().map(Vec::as_mut_slice);
        let lent = Lent { palette, picture_a, picture_b, place, room, words };
        reference::numbers::step(film, from, out, lent, *allowed, form)
    }

    fn shown(&self, lent: &mut Lending) -> usize {
        let Start { picture_a, picture_b, .. } = &lent.start;
        reference::numbers::shown(&lent.from, picture_a, picture_b)
    }

    fn shown_words(&self, lent: &mut Lending) -> usize {
        let words = lent.start.words.each_ref().map(Vec::as_slice);
        reference::numbers::shown_words(&lent.from, words)
    }
}

/// A film, and what its calls are given.
#[derive(Clone, Debug)]
pub struct Case {
    /// The film.
    pub film: Vec<u8>,
    /// The stream that it is opened for.
    pub stream: usize,
    /// What is lent.
    pub lent: Lending,
    /// The number of the form.
    pub form: usize,
}

/// The numbers of a case: those of a state in the middle of a film, also of one with true colour, good or
/// hostile, with flags that are neither 0 nor 1 and numbers where none is read; of half the cases more or fewer than a state has, or
/// with a last sample of more than 16 bits. The answer has any length about that of one. Some films have
/// bytes changed that the next step reads, and some lack their beginning.
pub fn case(seed: u64, number: u64) -> Case {
    let rng = &mut chance(seed, number);
    let frames = rng.between(1, 2);
    let stream = rng.below(16);
    let film = match rng.below(6) {
        0 | 1 => maker::film::with_frames(rng, frames),
        2 | 3 => maker::sound::with_frames(rng, stream, frames),
        4 => maker::true_colour::with_frames(rng, frames),
        _ => maker::true_colour::with_sound(rng, stream, frames),
    };
    let start = match rng.below(4) {
        0 => states::opening(rng, &film),
        1 | 2 => states::middle(rng, &film),
        _ => states::hostile(rng, &film),
    };
    let mut from = numbers_of(start.state).to_vec();
    if rng.one_in(2) {
        oddities(rng, &mut from);
    }
    match rng.below(8) {
        0 => from[rng.between(15, 16)] = sample_too_large(rng),
        1 => resize(rng, &mut from, &[17, 19]),
        2 => resize(rng, &mut from, &[0, 1, 17, 19, 26, 40]),
        _ => {}
    }
    let lengths = [26, 26, 26, 26, 27, 40, 25, 0, rng.below(26)];
    let out = (0..rng.pick(&lengths)).map(|_| any_number(rng)).collect();
    let form = rng.pick(&[0, 0, 1, 1, 2, 256, usize::MAX]);
    let stream = rng.pick(&[film.stream, film.stream, 16, usize::MAX]);
    let bytes = match rng.below(4) {
        0 => states::scratched_ahead(rng, &film, &start),
        1 if rng.one_in(4) => film.bytes()[rng.below(30)..].to_vec(),
        _ => film.bytes(),
    };
    Case { film: bytes, stream, lent: Lending { from, out, start }, form }
}

/// Flags that are not 0 become any other number that is not; what stands behind a map or a format that
/// is not there becomes any number, a sample one of 16 bits.
fn oddities(rng: &mut Seeded, from: &mut [usize]) {
    for at in [5, 8, 10, 11, 12, 13, 14, 17] {
        if from[at] != 0 && rng.one_in(2) {
            from[at] = any_number(rng).max(1);
        }
    }
    if from[5] == 0 {
        from[6..8].fill_with(|| any_number(rng));
    }
    if from[10] == 0 {
        from[11..15].fill_with(|| any_number(rng));
        from[15..17].fill_with(|| rng.pick(&[0, 1, 32_768, 65_535]));
    }
}

fn any_number(rng: &mut Seeded) -> usize {
    match rng.below(4) {
        0 => rng.below(3),
        1 => usize::MAX - rng.below(3),
        _ => rng.number() as usize,
    }
}

fn sample_too_large(rng: &mut Seeded) -> usize {
    rng.pick(&[65_536, 65_537, 131_071, 1 << 32, 1 << 63, usize::MAX])
}

/// Another length; numbers that are added are 0.
fn resize(rng: &mut Seeded, from: &mut Vec<usize>, lengths: &[usize]) {
    from.resize(rng.pick(lengths), 0);
}

/// The first thing that two accounts of a case differ in.
#[derive(Clone, Debug, PartialEq, Eq)]
pub struct Difference {
    /// The call.
    pub call: &'static str,
    /// What differs: `returned`, `from`, `out` or `lent`.
    pub part: &'static str,
    /// Whose accounts these are, and what they say.
    pub accounts: [(&'static str, String); 2],
}

impl fmt::Display for Difference {
    fn fmt(&self, f: &mut fmt::Formatter<'_>) -> fmt::Result {
        let [(first, one), (second, other)] = &self.accounts;
        write!(f, "{}, {}: {first} {one}, {second} {other}", self.call, self.part)
    }
}

impl std::error::Error for Difference {}

/// How often each thing was reached.
#[derive(Clone, Debug, Default)]
pub struct Reached(BTreeMap<String, usize>);

impl Reached {
    /// How often this was.
    pub fn times(&self, what: &str) -> usize {
        self.0.get(what).copied().unwrap_or(0)
    }

    fn count(&mut self, what: String) {
        *self.0.entry(what).or_default() += 1;
    }
}

impl fmt::Display for Reached {
    fn fmt(&self, f: &mut fmt::Formatter<'_>) -> fmt::Result {
        let counts: Vec<String> =
            self.0.iter().map(|(what, times)| format!("{times} {what}")).collect();
        f.write_str(&counts.join(", "))
    }
}

/// Compares the five calls of a case.
pub fn compare(
    first: &impl Boundary,
    second: &impl Boundary,
    case: &Case,
    reached: &mut Reached,
) -> Result<(), Difference> {
    let Case { film, stream, lent, form } = case;
    let calls = ["open", "begin", "step", "shown", "shown words"];
    for call in calls {
        let (mut one, mut other) = (lent.clone(), lent.clone());
        let returned = [
            make(call, first, film, *stream, &mut one, *form),
            make(call, second, film, *stream, &mut other, *form),
        ];
        let differs = |part, values: [String; 2]| {
            let [one, other] = values;
            Err(Difference { call, part, accounts: [(first.name(), one), (second.name(), other)] })
        };
        if returned[0] != returned[1] {
            return differs("returned", returned.map(|kind| kind.to_string()));
        }
        if one.from != lent.from || other.from != lent.from {
            return differs("from", [&one, &other].map(|lent| format!("{:?}", lent.from)));
        }
        if one.out != other.out {
            return differs("out", [&one, &other].map(|lent| format!("{:?}", lent.out)));
        }
        if one.start != other.start {
            return differs("lent", ["something".to_string(), "something else".to_string()]);
        }
        note(reached, call, lent, &one, returned[0]);
    }
    Ok(())
}

fn make(
    call: &str,
    by: &impl Boundary,
    film: &[u8],
    stream: usize,
    lent: &mut Lending,
    form: usize,
) -> usize {
    match call {
        "open" => by.open(film, stream, &mut lent.out),
        "begin" => by.begin(film, stream, lent),
        "step" => by.step(film, lent, form),
        "shown" => by.shown(lent),
        _ => by.shown_words(lent),
    }
}

/// Notes what a call met.
fn note(reached: &mut Reached, call: &str, found: &Lending, left: &Lending, returned: usize) {
    let Lending { from, out, .. } = found;
    if call.starts_with("shown") {
        let shown = match (call, returned) {
            ("shown", 0) => "nothing shown",
            ("shown", _) => "a picture shown",
            (_, 0) => "no words shown",
            _ => "a picture of words shown",
        };
        return reached.count(shown.to_string());
    }
    if out.len() < STEPPED_NUMBERS {
        return reached.count(format!("{call} with a short answer"));
    }
    if out.len() > STEPPED_NUMBERS {
        reached.count(format!("{call} with a long answer"));
    }
    if call == "step" {
        let no_state = match from[..] {
            _ if from.len() != STATE_NUMBERS => Some(format!("{} numbers", from.len())),
            [.., left, _, _] if left > 65_535 => Some("left too large".to_string()),
            [.., right, _] if right > 65_535 => Some("right too large".to_string()),
            _ => None,
        };
        if let Some(what) = no_state {
            return reached.count(format!("step from {what}"));
        }
        let moved = from[..] != left.out[8..STEPPED_NUMBERS];
        let is_odd =
            numbers_of(reference::numbers::state_of(from).expect("a state"))[..] != from[..];
        if is_odd {
            reached
                .count(format!("step from odd numbers, {}", if moved { "moved" } else { "kept" }));
        }
    }
    if left.out[8..STEPPED_NUMBERS].last() != Some(&0) {
        reached.count(format!("{call} with true colour, answered {}", left.out[0]));
    }
    match left.out[..2] {
        [4, number] => reached.count(format!("{call} refused by {number}")),
        [kind, _] => reached.count(format!("{call} answered {kind}")),
        _ => unreachable!("an answer has more numbers"),
    }
}
