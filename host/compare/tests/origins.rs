//! Where pixels come from (02, W9): the proved library names what the second program names, for every
//! pixel of many small pictures, and what is named holds the pixel's value. Planted faults are found.

use compare::origins::{compare, question, Question, Tracer};
use compare::{Proved, Second};
use maker::{packet, Form, Packet, Profile, Seeded, Size};
use reference::{Origin, Refusal, Traced};
use std::collections::BTreeMap;

const QUESTIONS: u64 = 3000;
/// How often each thing must be reached at least.
const OFTEN: usize = 20;

type Answer = Result<Traced, Refusal>;

/// What an answer is counted as.
fn event(answer: &Answer) -> String {
    match answer {
        Err(refusal) => format!("refused {}", refusal.number),
        Ok(Traced { code, origin, .. }) => {
            let kind = match origin {
                Origin::Byte(_) => "byte",
                Origin::Front(_) => "front",
                Origin::Back(_) => "back",
                Origin::New(_) => "new",
            };
            format!("code {code:X}, {kind}")
        }
    }
}

#[test]
fn every_pixel() {
    let mut reached = BTreeMap::new();
    for number in 0..QUESTIONS {
        let answers = compare(&Proved, &Second, &question(number));
        let answers = answers.unwrap_or_else(|differs| panic!("question {number}: {differs:?}"));
        for answer in &answers {
            *reached.entry(event(answer)).or_insert(0) += 1;
        }
    }
    println!("{reached:#?}");
    let refused = [6, 8, 10, 12, 13, 14, 15, 22].map(|number| format!("refused {number}"));
    let copies = ["0, front", "1, back", "2, back", "3, new", "4, front", "5, front"];
    let bytes = (7..16).map(|code| format!("code {code:X}, byte"));
    let wanted = refused.into_iter().chain(copies.map(|copy| format!("code {copy}"))).chain(bytes);
    let wanted: Vec<String> = wanted.collect();
    for event in &wanted {
        let times = reached.get(event).copied().unwrap_or(0);
        assert!(times >= OFTEN, "{event} reached {times} times");
    }
    assert_eq!(reached.len(), wanted.len(), "something else is answered");
}

/// Every form of a block in the middle of others, pixel by pixel.
#[test]
fn every_form() {
    let size = Size::new(4, 3);
    for form in Form::ALL {
        for seed in 0..20 {
            let rng = &mut Seeded::new(seed);
            let draft = packet::Draft::make(rng, size, Profile::Only(form));
            let (front, back) = (rng.bytes(size.pixels()), rng.bytes(size.pixels()));
            let positions = (0..24).flat_map(|y| (0..32).map(move |x| (x, y))).collect();
            let asked = Question { packet: draft.packet(), front, back, positions };
            let answers = compare(&Proved, &Second, &asked);
            let answers = answers.unwrap_or_else(|differs| panic!("{form:?}, {seed}: {differs:?}"));
            assert!(answers.iter().all(Result::is_ok), "{form:?}");
        }
    }
}

/// The largest picture: its corners, its edges and pixels between.
#[test]
fn largest() {
    let rng = &mut Seeded::new(9);
    let size = Size::new(80, 60);
    let draft = packet::Draft::make(rng, size, Profile::Mixed);
    let (front, back) = (rng.bytes(size.pixels()), rng.bytes(size.pixels()));
    let mut positions = vec![(0, 0), (639, 0), (0, 479), (639, 479), (640, 479), (639, 480)];
    positions.extend((0..500).map(|_| (rng.below(640), rng.below(480))));
    let asked = Question { packet: draft.packet(), front, back, positions };
    let answers = compare(&Proved, &Second, &asked).unwrap_or_else(|differs| panic!("{differs:?}"));
    assert_eq!(answers.iter().filter(|answer| answer.is_err()).count(), 2);
}

/// The second program with a fault.
struct Faulty<F>(F);

impl<F: Fn(&Packet, (usize, usize), Answer) -> Answer> Tracer for Faulty<F> {
    fn origin(
        &self,
        packet: &Packet,
        front: &[u8],
        back: &[u8],
        position: (usize, usize),
    ) -> Answer {
        (self.0)(packet, position, Second.origin(packet, front, back, position))
    }
}

/// Whether a fault is found: as one against a program without it, or, where both have it, by the value.
fn is_found(fault: impl Fn(&Packet, (usize, usize), Answer) -> Answer, both: bool) -> bool {
    let faulty = Faulty(fault);
    let second: &dyn Tracer = if both { &faulty } else { &Second };
    (0..QUESTIONS).any(|number| compare(&faulty, second, &question(number)).is_err())
}

/// A fault in what is named.
fn named(
    change: impl Fn(&Packet, Traced) -> Origin,
) -> impl Fn(&Packet, (usize, usize), Answer) -> Answer {
    move |packet, _, answer| {
        answer.map(|traced| Traced { origin: change(packet, traced), ..traced })
    }
}

/// The bytes of the blocks in front of one.
fn start(packet: &Packet, block: usize) -> usize {
    let Packet { columns, rows, map, data } = packet;
    let blocks = reference::packet::blocks(*columns, *rows, map, data).expect("accepted");
    blocks[..block].iter().map(|block| block.data.len()).sum()
}

#[test]
fn faults() {
    assert!(!is_found(|_, _, answer| answer, false));
    for both in [false, true] {
        let from_the_block = named(|packet, traced| match traced.origin {
            Origin::Byte(index) => Origin::Byte(index - start(packet, traced.block)),
            other => other,
        });
        assert!(is_found(from_the_block, both));
        let next_byte = named(|_, traced| match traced.origin {
            Origin::Byte(index) => Origin::Byte(index + 2), // a field's byte of a code 7
            other => other,
        });
        assert!(is_found(next_byte, both));
        let front_for_back = named(|_, traced| match traced.origin {
            Origin::Back(at) => Origin::Front(at),
            other => other,
        });
        assert!(is_found(front_for_back, both));
        let new_as_lent = named(|_, traced| match traced.origin {
            Origin::New(at) => Origin::Back(at),
            other => other,
        });
        assert!(is_found(new_as_lent, both));
        let lent_as_new = named(|_, traced| match traced.origin {
            Origin::Back(at) if traced.code == 2 => Origin::New(at),
            other => other,
        });
        assert!(is_found(lent_as_new, both));
        let swapped = named(|_, traced| match traced.origin {
            Origin::Front((x, y)) => Origin::Front((y, x)),
            other => other,
        });
        assert!(is_found(swapped, both));
    }
    let position_first = |packet: &Packet, (x, y): (usize, usize), answer| {
        let is_outside = x >= 8 * packet.columns || y >= 8 * packet.rows;
        if is_outside {
            Err(Refusal::new(22))
        } else {
            answer
        }
    };
    assert!(is_found(position_first, false));
    let another_block = |_: &Packet, _, answer: Answer| {
        answer.map(|traced| Traced { block: traced.block + 1, ..traced })
    };
    assert!(is_found(another_block, false));
}
