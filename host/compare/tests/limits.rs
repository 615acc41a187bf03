//! Frames at the limits of the size: 80x60, 1x1, 80x1 and 1x60 blocks. Whole pictures are drawn by
//! calls of several allowances, and films of such pictures are stepped over. The proved library's
//! answers, counts and places on the way are the second decoder's, and so is every byte at the end.

use compare::{Answer, Decoder, Proved, Second, Step, Walked};
use maker::packet::Draft;
use maker::states::{self, Start};
use maker::{film, Form, Packet, Profile, Seeded, Size};
use reference::film::State;
use reference::CallForm;

const SIZES: [(usize, usize); 4] = [(80, 60), (1, 1), (80, 1), (1, 60)];

/// Stores that a call is allowed: a block's, some blocks', those of a row of 80 blocks and one more,
/// a sixth of the largest frame's, and all of them.
const ALLOWANCES: [usize; 5] = [65, 1000, 80 * 65 + 1, 52_000, 312_000];

/// More steps than a film of two frames has: each finishes a block, of 4,800 a frame, or passes a head.
const MOST_STEPS: usize = 2 * 4800 + 20;

/// What is seen of a frame that is drawn by several calls.
#[derive(PartialEq)]
struct Seen {
    /// The answer to each call, and the place behind it.
    calls: Vec<(Answer, usize)>,
    front: Vec<u8>,
    back: Vec<u8>,
}

/// Draws a frame on these pictures, shown and drawn on, until it is whole or a call is refused. Each
/// call finishes a block at least, so there are no more of them than blocks.
fn draw(
    decoder: &dyn Decoder,
    form: CallForm,
    packet: &Packet,
    pictures: [&[u8]; 2],
    allowed: usize,
) -> Seen {
    let [mut front, mut back] = pictures.map(<[u8]>::to_vec);
    let (mut place, mut calls) = (0, Vec::new());
    for _ in 0..packet.columns * packet.rows {
        let answer = decoder.draw(form, packet, &mut front, &mut back, &mut place, allowed);
        calls.push((answer, place));
        let goes_on = answer.is_ok_and(|drawn| !drawn.whole);
        if !goes_on {
            break;
        }
    }
    Seen { calls, front, back }
}

/// Draws a frame by both decoders with each allowance. All comes to the same, and the pictures to
/// that of a single call, which makes every store. In the default form the packet is padded.
fn compare_frame(rng: &mut Seeded, form: CallForm, size: Size, profile: Profile) {
    let over = usize::from(form == CallForm::Default);
    let draft = Draft::make(rng, size, profile).with_over(rng, over);
    let packet = draft.packet();
    let (front, back) = (rng.bytes(size.pixels()), rng.bytes(size.pixels()));
    let seen = ALLOWANCES.map(|allowed| {
        let seen = draw(&Proved, form, &packet, [&front, &back], allowed);
        let same = seen == draw(&Second, form, &packet, [&front, &back], allowed);
        assert!(same, "{size:?}, {profile:?}, {allowed} stores a call");
        assert!(seen.front == front, "{size:?}: the shown picture is changed");
        seen
    });
    let [.., at_once] = &seen;
    assert_eq!(at_once.calls.len(), 1);
    let whole = at_once.calls[0].0.expect("a valid packet");
    assert_eq!((whole.whole, whole.stores), (true, draft.stores_from(0)));
    for Seen { calls, back, .. } in &seen {
        assert_eq!(calls.last().map(|(_, place)| *place), Some(size.blocks()));
        assert!(*back == at_once.back, "{size:?}, {profile:?}: {} calls", calls.len());
    }
}

/// Blocks of every form; frames that read what they overwrite; and pixels in every block.
#[test]
fn pictures() {
    for (seed, (columns, rows)) in (0..).zip(SIZES) {
        for (profile, form) in [
            (Profile::Mixed, CallForm::Default),
            (Profile::BackCopies, CallForm::Strict),
            (Profile::Only(Form::SameBlock), CallForm::Default),
        ] {
            compare_frame(&mut Seeded::new(seed), form, Size::new(columns, rows), profile);
        }
    }
}

/// The largest frame, with pixels in every block, has 312,000 stores: 4,800 calls of 65 each, or six
/// of 52,000. Each makes all that it is allowed.
#[test]
fn counts() {
    let size = Size::new(80, 60);
    let packet = Draft::make(&mut Seeded::new(1), size, Profile::Only(Form::SameBlock)).packet();
    let (front, back) = (vec![7; size.pixels()], vec![0; size.pixels()]);
    for (allowed, calls) in [(65, 4800), (52_000, 6), (312_000, 1)] {
        let seen = draw(&Proved, CallForm::Default, &packet, [&front, &back], allowed);
        assert_eq!(seen.calls.len(), calls);
        for (number, (answer, place)) in seen.calls.iter().enumerate() {
            assert_eq!(answer.map(|drawn| drawn.stores), Ok(allowed), "call {number}");
            assert_eq!(*place, (number + 1) * allowed / 65, "call {number}");
        }
        assert!(seen.back == front);
    }
}

/// Steps over a film to its end or a refusal: each answer with the state and the place behind it, and
/// what is left at the end.
fn walk(
    decoder: &dyn Decoder,
    form: CallForm,
    film: &[u8],
    start: &Start,
) -> (Vec<(Walked, State, usize)>, Start) {
    let (mut walk, mut steps) = (start.clone(), Vec::new());
    while steps.len() < MOST_STEPS {
        let answer = decoder.step(form, film, &mut walk);
        steps.push((answer, walk.state, walk.place));
        if matches!(answer, Ok(Step::Ended) | Err(_)) {
            break;
        }
    }
    (steps, walk)
}

#[test]
fn films() {
    for (seed, (columns, rows)) in (0..).zip(SIZES) {
        let (rng, size) = (&mut Seeded::new(seed), Size::new(columns, rows));
        let film = film::plain(rng, size, Profile::Light, 2);
        let (bytes, opened) = (film.bytes(), states::opening(rng, &film));
        for (allowed, form) in ALLOWANCES.into_iter().zip(CallForm::ALL.into_iter().cycle()) {
            let start = Start { allowed, ..opened.clone() };
            let seen = walk(&Proved, form, &bytes, &start);
            let same = seen == walk(&Second, form, &bytes, &start);
            assert!(same, "{size:?}, {allowed} stores a step, {form:?}");
            let (steps, left) = seen;
            assert_eq!(steps.last().map(|step| step.0), Some(Ok(Step::Ended)), "{size:?}");
            assert_eq!((left.state.columns, left.state.rows), (columns, rows));
            let shown = Proved.shown(&left.state, &left.picture_a, &left.picture_b);
            assert_eq!(shown.len(), 64 * columns * rows);
            assert!(shown == Second.shown(&left.state, &left.picture_a, &left.picture_b));
        }
    }
}
