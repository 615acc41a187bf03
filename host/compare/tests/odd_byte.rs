//! What packets leave over (02, W6): one byte is taken in the default form, none in the strict one, for
//! every kind of last block, by checks, drawing calls and steps; 15 comes last in the order; the two
//! forms agree unless exactly one byte is left over; and that byte does not change the picture.

mod common;

use common::{same, LEFT_OVER};
use compare::forms::packet_at;
use compare::{Comparison, Decoder, Event, FromDefault, Kind, Proved, Second, Step};
use maker::packet::{self, Draft};
use maker::packet_damage::{damaged, Damage};
use maker::states::{self, Start};
use maker::{film, Form, Packet, Profile, Seeded, Size};
use reference::film::State;
use reference::{CallForm, Refusal};
use std::collections::BTreeSet;

/// Bytes left over: each number up to four, and many.
const OVER: [usize; 6] = [0, 1, 2, 3, 4, 1000];

/// Frames of few blocks, in which each form but code 2 can be that of the last one.
const SIZES: [(usize, usize); 4] = [(1, 1), (2, 1), (1, 2), (3, 2)];

/// Packets that leave nothing over, one for each size and form of the last block.
fn last_blocks(rng: &mut Seeded) -> Vec<(Form, Draft)> {
    let sizes = SIZES.map(|(columns, rows)| Size::new(columns, rows));
    let kinds = sizes.into_iter().flat_map(|size| Form::ALL.map(|form| (size, form)));
    let draft = |(size, form)| {
        let draft = Draft::ending_in(rng, size, Profile::Mixed, form)?;
        Some((form, draft))
    };
    let drafts: Vec<_> = kinds.filter_map(draft).collect();
    // Code 2 copies from later blocks.
    let all = Form::ALL.into_iter().filter(|form| *form != Form::BackAhead);
    assert_eq!(drafts.iter().map(|(form, _)| *form).collect::<BTreeSet<_>>(), all.collect());
    drafts
}

/// What a packet is refused by which leaves so many bytes over and has no other fault, in the default
/// form and in the strict one.
fn numbers(over: usize) -> [Option<u8>; 2] {
    [(over > 1).then_some(15), (over > 0).then_some(15)]
}

/// What a call is refused by; 15 names no block.
fn refused<T>(answer: Result<T, Refusal>) -> Option<u8> {
    let Refusal { number, block } = answer.err()?;
    assert!(number != 15 || block == 0, "block {block}");
    Some(number)
}

#[test]
fn checks() {
    for seed in 0..50 {
        let rng = &mut Seeded::new(seed);
        for (last, draft) in last_blocks(rng) {
            for over in OVER {
                let packet = draft.clone().with_over(rng, over).packet();
                let answers = same(&packet, |decoder, form| decoder.check(form, &packet));
                assert_eq!(answers.map(refused), numbers(over), "{last:?}, {over} over");
            }
        }
    }
}

/// From every place, with no store allowed, few, a block's, and more than all.
#[test]
fn drawing_calls() {
    for seed in 0..5 {
        let rng = &mut Seeded::new(seed);
        for (last, draft) in last_blocks(rng) {
            let pixels = draft.size.pixels();
            let (front, back) = (rng.bytes(pixels), rng.bytes(pixels));
            let places = (0..=draft.blocks.len()).flat_map(|k| [0, 1, 64, 65, 999].map(|n| (k, n)));
            for ((found, n), over) in places.flat_map(|call| OVER.map(|over| (call, over))) {
                let packet = draft.clone().with_over(rng, over).packet();
                let seen = same((found, n, &packet), |decoder, form| {
                    let (mut front, mut back, mut place) = (front.clone(), back.clone(), found);
                    let answer = decoder.draw(form, &packet, &mut front, &mut back, &mut place, n);
                    (answer, place, front, back)
                });
                let answers = seen.map(|(answer, ..)| refused(answer));
                assert_eq!(answers, numbers(over), "{last:?}, {over} over");
            }
        }
    }
}

/// A film whose only frame has this packet, and what the step at its opcode 11 is given.
fn at_video(rng: &mut Seeded, size: Size, packet: Packet) -> (Vec<u8>, Start) {
    let film = film::of_packets(rng, size, vec![packet]);
    let (bytes, mut start) = (film.bytes(), states::opening(rng, &film));
    while packet_at(&bytes, &start.state).is_none() {
        let answer = Second.step(CallForm::Default, &bytes, &mut start);
        assert!(matches!(answer, Ok(Step::Taken(_, 0))), "{answer:?}");
    }
    (bytes, start)
}

/// Steps over opcode 11 of a film, with few stores and with all; then all steps to the film's end: the
/// picture is sent where the packet is taken.
#[test]
fn films() {
    let rng = &mut Seeded::new(1);
    for ((last, draft), over) in
        last_blocks(rng).into_iter().flat_map(|draft| OVER.map(|over| (draft.clone(), over)))
    {
        let packet = draft.clone().with_over(rng, over).packet();
        let (film, start) = at_video(rng, draft.size, packet);
        for allowed in [0, 10, 65, 312_000] {
            let seen = same((last, over, allowed), |decoder, form| {
                let mut walk = Start { allowed, ..start.clone() };
                (decoder.step(form, &film, &mut walk), walk)
            });
            let answers = seen.map(|(answer, _)| refused(answer));
            assert_eq!(answers, numbers(over), "{last:?}, {over} over");
        }
        let seen = same((last, over), |decoder, form| {
            let (mut walk, mut answers) = (start.clone(), Vec::new());
            while !matches!(answers.last(), Some(Ok(Step::Ended) | Err(_))) {
                answers.push(decoder.step(form, &film, &mut walk));
            }
            (answers, walk)
        });
        let fronts = seen.map(|(_, walk)| walk.state.front);
        let taken = numbers(over).map(|number| usize::from(number.is_none()));
        assert_eq!(fronts, taken, "{last:?}, {over} over");
    }
}

/// The faults of a packet that come before 15 whatever is left over, and their numbers. (A block that
/// lacks a byte, 13, leaves none over.)
const FAULTS: [(Damage, u8); 6] = [
    (Damage::BadColumns, 6),
    (Damage::BadRows, 6),
    (Damage::ShortMap, 10),
    (Damage::LongMap, 10),
    (Damage::CodeSix, 12),
    (Damage::CopyOutside, 14),
];

/// 15 comes behind all others in checks and drawing calls.
#[test]
fn order_of_calls() {
    for (seed, over) in (0..100).flat_map(|seed| OVER.map(|over| (seed, over))) {
        let rng = &mut Seeded::new(seed);
        let draft = packet::small(rng).with_over(rng, over);
        let (pixels, blocks) = (draft.size.pixels(), draft.blocks.len());
        let draw = |packet: &Packet, pixels: usize, found: usize| {
            let answers = same((pixels, found, packet), |decoder, form| {
                let (mut front, mut back, mut place) = (vec![1; pixels], vec![2; pixels], found);
                decoder.draw(form, packet, &mut front, &mut back, &mut place, 65)
            });
            answers.map(refused)
        };
        for (damage, number) in FAULTS {
            let packet = damaged(rng, &draft, damage);
            let checked = same(&packet, |decoder, form| decoder.check(form, &packet));
            assert_eq!(checked.map(refused), [Some(number); 2], "{damage:?}, {over} over");
            assert_eq!(draw(&packet, pixels, 0), [Some(number); 2], "{damage:?}, {over} over");
        }
        let packet = draft.packet();
        assert_eq!(draw(&packet, pixels - 1, 0), [Some(8); 2], "{over} over");
        assert_eq!(draw(&packet, pixels, blocks + 1), [Some(11); 2], "{over} over");
        assert_eq!(draw(&packet, pixels, blocks), numbers(over), "{over} over");
    }
}

/// What a step at opcode 11 is refused by.
fn stepped(film: &[u8], start: Start) -> [Option<u8>; 2] {
    let seen = same(start.state, |decoder, form| {
        let mut walk = start.clone();
        (decoder.step(form, film, &mut walk), walk)
    });
    seen.map(|(answer, _)| refused(answer))
}

/// The same of steps, which also meet 16 and 9 before it.
#[test]
fn order_of_steps() {
    for (seed, over) in (0..30).flat_map(|seed| OVER.map(|over| (seed, over))) {
        let rng = &mut Seeded::new(seed);
        let draft = packet::small(rng).with_over(rng, over);
        let (film, start) = at_video(rng, draft.size, draft.packet());
        let with = |state| Start { state, ..start.clone() };
        for (wrong, number) in [
            (with(State { front: 2, ..start.state }), 16),
            (Start { palette: vec![0; 767], ..start.clone() }, 8),
            (with(State { map: None, ..start.state }), 9),
            (Start { place: draft.blocks.len() + 1, ..start.clone() }, 11),
        ] {
            assert_eq!(stepped(&film, wrong), [Some(number); 2], "{over} over");
        }
        assert_eq!(stepped(&film, start), numbers(over), "{over} over");
        for (damage, number) in FAULTS.into_iter().filter(|&(_, number)| number > 6) {
            let packet = damaged(rng, &draft, damage);
            let (film, start) = at_video(rng, draft.size, packet);
            assert_eq!(stepped(&film, start), [Some(number); 2], "{damage:?}, {over} over");
        }
    }
}

/// Compares a decoder's strict form with what follows from its default form, on seeded cases.
fn compare_forms(decoder: impl Decoder + Copy, kind: Kind, cases: u64, wanted: &[Event]) {
    let mut comparison = Comparison::new(decoder, FromDefault(decoder));
    let compared = comparison.run(kind, 2, 0..cases);
    compared.unwrap_or_else(|found| panic!("{found}"));
    let tally = comparison.tally();
    for &event in wanted {
        let times = tally.times(event);
        println!("{} of {}: {event:?} reached {times} times", kind, decoder.name());
        assert!(times >= 10, "{kind}: {event:?} reached {times} times");
    }
    let never = [(CallForm::Default, 2), (CallForm::Default, 3), (CallForm::Strict, 1)];
    for (form, over) in never {
        assert_eq!(tally.times(Event::TakenOver(form, over)), 0, "{kind}, {form:?}, {over} over");
    }
}

/// The forms agree unless exactly one byte is left over: checks, lists of calls, films and films with
/// sound; of the proved library, and of the second decoder.
#[test]
fn forms_agree() {
    for (kind, cases, wanted) in [
        (Kind::Packets, 10_000, &LEFT_OVER[..]),
        (Kind::Lists, 2000, &LEFT_OVER),
        (Kind::Films, 10_000, &LEFT_OVER),
        (Kind::Sounds, 1000, &[Event::RefusedOver(CallForm::Strict, 1)]),
    ] {
        compare_forms(Proved, kind, cases, wanted);
        compare_forms(Second, kind, cases, wanted);
    }
}

/// A packet with a byte left over comes to the same whatever the byte is, and to what it comes to
/// without it: for every kind of last block, from every place.
#[test]
fn the_byte_does_not_show() {
    let rng = &mut Seeded::new(1);
    let decoders = [(&Proved as &dyn Decoder, 312_000), (&Proved, 30), (&Second, 312_000)];
    for (last, draft) in last_blocks(rng) {
        let pixels = draft.size.pixels();
        let (front, back) = (rng.bytes(pixels), rng.bytes(pixels));
        let places = (0..=draft.blocks.len()).flat_map(|found| decoders.map(|by| (found, by)));
        for (found, (decoder, allowed)) in places {
            let draw = |packet: &Packet| {
                let (mut front, mut back, mut place) = (front.clone(), back.clone(), found);
                let (form, place) = (CallForm::Default, &mut place);
                let answer = decoder.draw(form, packet, &mut front, &mut back, place, allowed);
                (answer, *place, front, back)
            };
            let without = draw(&draft.packet());
            assert!(without.0.is_ok(), "{last:?}");
            for odd in 0..=255 {
                let padded = Draft { over: vec![odd], ..draft.clone() }.packet();
                assert!(draw(&padded) == without, "{last:?}, {}, {odd:02x}", decoder.name());
            }
        }
    }
}

/// Films that differ only in those bytes are walked over by the same steps, to the same pictures.
#[test]
fn the_byte_does_not_show_in_films() {
    for seed in 0..200 {
        let rng = &mut Seeded::new(seed);
        let (size, profile) = (Size::small(rng), rng.pick(&Profile::MANY));
        let drafts = [(); 3].map(|()| Draft::make(rng, size, profile).with_over(rng, 1));
        let others = drafts.clone().map(|draft| Draft { over: vec![!draft.over[0]], ..draft });
        let films = [drafts, others].map(|drafts| {
            let packets = drafts.map(|draft| draft.packet()).to_vec();
            film::of_packets(&mut Seeded::new(seed), size, packets)
        });
        let allowed = rng.pick(&[65, 200, 312_000]);
        let start = Start { allowed, ..states::opening(rng, &films[0]) };
        for decoder in [&Proved as &dyn Decoder, &Second] {
            let [one, other] = films.each_ref().map(|film| {
                let (bytes, mut walk, mut steps) = (film.bytes(), start.clone(), Vec::new());
                while !matches!(steps.last(), Some((Ok(Step::Ended) | Err(_), _))) {
                    let answer = decoder.step(CallForm::Default, &bytes, &mut walk);
                    steps.push((answer, walk.clone()));
                }
                steps
            });
            assert!(matches!(one.last(), Some((Ok(Step::Ended), _))), "seed {seed}");
            assert!(one == other, "seed {seed}, {}", decoder.name());
        }
    }
}
