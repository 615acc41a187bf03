//! The film's calls with states and answers as numbers of any count: the proved library returns, writes
//! and leaves what the second decoder does. A difference would be found: the second decoder with a fault
//! takes the library's place, and each fault is reported, as what it is.

use compare::numbers::{case, compare, Boundary, Difference, Lending, Reached};
use compare::{Proved, Second};

const SEED: u64 = 1;
const CASES: u64 = 20_000;
/// How often each thing must be reached at least.
const OFTEN: usize = 10;

#[test]
fn numbers() {
    let mut reached = Reached::default();
    for number in 0..CASES {
        let compared = compare(&Proved, &Second, &case(SEED, number), &mut reached);
        compared.unwrap_or_else(|difference| panic!("case {number}: {difference}"));
    }
    println!("{reached}");
    let kinds =
        ["answered 0", "answered 1", "answered 2", "answered 3"].map(|kind| format!("step {kind}"));
    let refusals = [2, 3, 4, 5, 8, 11, 13, 14, 15, 16, 17, 18, 19, 20]
        .map(|number| format!("step refused by {number}"));
    let counts = [0, 1, 17, 19, 26, 40].map(|count| format!("step from {count} numbers"));
    let calls = ["open", "begin", "step"];
    let answers = calls
        .iter()
        .flat_map(|call| ["short", "long"].map(|length| format!("{call} with a {length} answer")));
    let others = [
        "step from left too large",
        "step from right too large",
        "step from odd numbers, moved",
        "step from odd numbers, kept",
        "open answered 0",
        "open refused by 1",
        "begin answered 0",
        "begin refused by 1",
        "begin refused by 8",
        "nothing shown",
        "a picture shown",
        "no words shown",
        "a picture of words shown",
        "begin with true colour, answered 0",
        "step with true colour, answered 0",
        "step with true colour, answered 1",
        "step with true colour, answered 2",
        "step with true colour, answered 3",
        "step with true colour, answered 4",
    ];
    let others = others.map(str::to_string);
    let all = kinds.into_iter().chain(refusals).chain(counts).chain(answers).chain(others);
    for what in all {
        let times = reached.times(&what);
        assert!(times >= OFTEN, "{what}: reached {times} times, wanted {OFTEN}");
    }
}

/// A step, as it was made without fault, for one to be put in.
struct Made<'a> {
    film: &'a [u8],
    form: usize,
    found: &'a Lending,
    left: &'a mut Lending,
    returned: &'a mut usize,
}

/// The second decoder with a fault in its step.
struct Faulty<F>(F);

impl<F: Fn(Made<'_>)> Boundary for Faulty<F> {
    fn name(&self) -> &'static str {
        "faulty decoder"
    }

    fn open(&self, film: &[u8], stream: usize, out: &mut [usize]) -> usize {
        Second.open(film, stream, out)
    }

    fn begin(&self, film: &[u8], stream: usize, lent: &mut Lending) -> usize {
        Second.begin(film, stream, lent)
    }

    fn step(&self, film: &[u8], lent: &mut Lending, form: usize) -> usize {
        let found = lent.clone();
        let mut returned = Second.step(film, lent, form);
        (self.0)(Made { film, form, found: &found, left: lent, returned: &mut returned });
        returned
    }

    fn shown(&self, lent: &mut Lending) -> usize {
        Second.shown(lent)
    }

    fn shown_words(&self, lent: &mut Lending) -> usize {
        Second.shown_words(lent)
    }
}

/// The first difference that a fault makes.
#[track_caller]
fn found(fault: impl Fn(Made<'_>)) -> Difference {
    let faulty = Faulty(fault);
    let mut reached = Reached::default();
    let differences = (0..CASES / 10)
        .find_map(|number| compare(&faulty, &Second, &case(SEED, number), &mut reached).err());
    differences.expect("a fault that is found")
}

#[track_caller]
fn assert_found(part: &str, fault: impl Fn(Made<'_>)) {
    let Difference { call, part: told, .. } = found(fault);
    assert_eq!((call, told), ("step", part));
}

/// A fault that takes what is refused: another kind is returned, or another refusal is told.
#[track_caller]
fn assert_taken(fault: impl Fn(Made<'_>)) {
    let Difference { call, part, .. } = found(fault);
    assert!(call == "step" && ["returned", "out"].contains(&part), "{call}, {part}");
}

#[test]
fn no_fault() {
    let mut reached = Reached::default();
    let faultless = Faulty(|_: Made<'_>| ());
    for number in 0..CASES / 10 {
        let compared = compare(&faultless, &Second, &case(SEED, number), &mut reached);
        assert_eq!(compared, Ok(()), "{number}");
    }
}

#[test]
fn faults_in_the_answer() {
    // A number too far.
    assert_found("out", |made| {
        if let Some(number) = made.left.out.get_mut(26) {
            *number ^= 1;
        }
    });
    // An answer that is written as far as there is room.
    assert_found("out", |made| {
        if (1..26).contains(&made.left.out.len()) {
            made.left.out[0] = 4;
        }
    });
    // Another kind is returned than is written.
    assert_found("returned", |made| {
        if *made.returned == 2 {
            *made.returned = 1;
        }
    });
    // A state of zeros, where the one that went in comes back; and the other way round.
    assert_found("out", |made| {
        if made.left.out.len() >= 26 && made.left.out[1] == 8 {
            made.left.out[8..26].fill(0);
        }
    });
    assert_found("out", |made| {
        if made.left.out.len() >= 26 && made.found.from.len() == 19 {
            made.left.out[8..26].copy_from_slice(&made.found.from[..18]);
        }
    });
    // Flags that are set become 1 also where the state stays.
    assert_found("out", |made| {
        if made.left.out.len() >= 26 && matches!(made.left.out[0], 2..=4) {
            let flags = [13, 16, 18, 19, 20, 21, 22, 25];
            flags.iter().for_each(|&at| made.left.out[at] = made.left.out[at].min(1));
        }
    });
    // A flag of any number stays where the state moves.
    assert_found("out", |made| {
        if made.left.out.len() >= 26 && made.left.out[0] == 0 && made.left.out[13] == 1 {
            made.left.out[13] = made.found.from[5];
        }
    });
}

#[test]
fn faults_in_what_is_taken() {
    // Last samples of which only 16 bits are read.
    assert_taken(|made| {
        let mut cut = made.found.clone();
        cut.from.iter_mut().skip(15).take(2).for_each(|number| *number %= 65_536);
        if cut.from.len() == 18 && cut != *made.found {
            *made.returned = Second.step(made.film, &mut cut, made.form);
            *made.left = Lending { from: made.found.from.clone(), ..cut };
        }
    });
    // More numbers than a state has, of which the first are taken.
    assert_taken(|made| {
        let mut cut = made.found.clone();
        cut.from.truncate(18);
        if made.found.from.len() > 18 {
            *made.returned = Second.step(made.film, &mut cut, made.form);
            *made.left = Lending { from: made.found.from.clone(), ..cut };
        }
    });
    // Only 1 is the strict form.
    assert_taken(|made| {
        if made.form > 1 {
            *made.left = made.found.clone();
            *made.returned = Second.step(made.film, made.left, 0);
        }
    });
}

/// The last number says whether a film has true colour.
#[test]
fn faults_in_the_kind() {
    let step_as = |made: Made<'_>, change: fn(&mut usize)| {
        let mut other = made.found.clone();
        other.from.get_mut(17).into_iter().for_each(change);
        *made.returned = Second.step(made.film, &mut other, made.form);
        *made.left = Lending { from: made.found.from.clone(), ..other };
    };
    // Only 1 says so.
    assert_taken(|made| {
        if made.found.from.get(17).is_some_and(|&number| number > 1) {
            step_as(made, |number| *number = 0);
        }
    });
    // Only the lowest bit is read.
    assert_taken(|made| {
        if made.found.from.get(17).is_some_and(|&number| number > 1 && number % 2 == 0) {
            step_as(made, |number| *number = 0);
        }
    });
    // It is not written.
    assert_found("out", |made| {
        if let Some(number) = made.left.out.get_mut(25).filter(|number| **number == 1) {
            *number = 0;
        }
    });
    // A word of a picture that is not drawn on.
    assert_found("lent", |made| {
        if *made.returned == 1 {
            made.left.start.words[0].iter_mut().take(1).for_each(|word| *word ^= 0x8000);
        }
    });
}

#[test]
fn faults_in_what_is_lent() {
    assert_found("from", |made| {
        if let Some(position) = made.left.from.first_mut() {
            *position ^= 1;
        }
    });
    // A place that is set although the answer has no room.
    assert_found("lent", |made| {
        if made.left.out.len() < 26 {
            made.left.start.place = 0;
        }
    });
    assert_found("lent", |made| {
        if made.left.from.len() != 18 {
            made.left.start.palette.fill(0);
        }
    });
}
