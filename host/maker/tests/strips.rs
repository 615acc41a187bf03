//! Films with much that the player passes over: what is left of them is by the second program what it is
//! by construction, and they play to their end.

use maker::states::ENOUGH_ROOM;
use maker::strips::{make, Padded};
use maker::{true_colour, Seeded};
use reference::film::{open, step, Lent, Stepped};
use reference::frame::MAX_PIXELS;
use reference::sound::NO_STREAM;
use reference::strip::strip;
use std::collections::BTreeSet;

const FILMS: u64 = 2_000;

#[test]
fn what_is_left_is_known_by_construction() {
    for seed in 0..FILMS / 10 {
        let made = true_colour::padded(&mut Seeded::new(seed));
        for stream in 0..NO_STREAM + 2 {
            let film = made.bytes();
            assert!(strip(&film, stream, film.len()) == Ok(made.left(stream)), "seed {seed}");
        }
    }
    let (mut kinds, mut streams) = (BTreeSet::new(), BTreeSet::new());
    let (mut several, mut empty, mut tails, mut endless, mut same) = (0, 0, 0, 0, 0);
    for seed in 0..FILMS {
        let made = make(&mut Seeded::new(seed));
        let film = made.bytes();
        for stream in 0..NO_STREAM + 2 {
            let left = strip(&film, stream, film.len());
            assert!(left == Ok(made.left(stream)), "seed {seed}, stream {stream}");
            kinds.extend(made.dropped(stream).map(|opcode| opcode.kind));
            same += usize::from(left.is_ok_and(|left| left == film));
        }
        several += usize::from(made.streams.len() > 1);
        empty += made.chunks.iter().filter(|(_, opcodes)| opcodes.is_empty()).count();
        tails += usize::from(!made.tail.is_empty());
        endless += usize::from(!made.chunks.iter().any(|(_, opcodes)| ends(opcodes)));
        streams.extend(made.streams);
    }
    let all = [0x02, 0x03, 0x04, 0x08, 0x09, 0x0A, 0x12, 0x13, 0x14, 0x15];
    assert_eq!(kinds, all.into(), "every type that can be dropped");
    assert_eq!(streams, (0..16).collect(), "every stream");
    assert!(several > 100 && empty > 100 && tails > 100 && endless > 100 && same > 0);
}

fn ends(opcodes: &[(maker::strips::For, maker::film::Opcode)]) -> bool {
    opcodes.iter().any(|(_, opcode)| opcode.kind == 0x00)
}

/// Whether a film plays to its end for a stream.
fn plays(film: &[u8], stream: usize) -> bool {
    let mut state = open(film, stream).expect("a header");
    let (mut palette, mut place, mut room) = ([0; 768], 0, vec![0; ENOUGH_ROOM]);
    let (mut a, mut b) = (vec![0; MAX_PIXELS], vec![0; MAX_PIXELS]);
    let mut words = [(); 3].map(|()| vec![0; MAX_PIXELS]);
    loop {
        let lent = Lent {
            palette: &mut palette,
            picture_a: &mut a,
            picture_b: &mut b,
            place: &mut place,
            room: &mut room,
            words: words.each_mut().map(Vec::as_mut_slice),
        };
        state = match step(film, state, lent, 312_000) {
            Stepped::Taken(after, ..) | Stepped::Whole(after, ..) => after,
            Stepped::Ended(_) => return true,
            Stepped::Unfinished(..) | Stepped::Refused(_) => return false,
        };
    }
}

#[test]
fn they_play() {
    for seed in 0..FILMS / 10 {
        let rng = &mut Seeded::new(seed);
        let made: Padded = if seed % 2 == 0 { make(rng) } else { true_colour::padded(rng) };
        for &stream in made.streams.iter().chain(&[NO_STREAM]) {
            assert!(plays(&made.bytes(), stream), "seed {seed}, stream {stream}");
        }
    }
}
