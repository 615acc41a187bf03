//! Films whose opcode 05 stands anywhere: what they are made for, told by the second decoder.

use maker::{beginning, Seeded};
use reference::begin::begin;
use reference::refusal::NO_SIZE;
use reference::sound::NO_STREAM;
use std::collections::BTreeSet;

const FILMS: u64 = 2000;

/// A film without a fault is opened up to its size, or has none. The size comes behind none, one and
/// many opcodes.
#[test]
fn films() {
    let (mut sizes, mut none) = (BTreeSet::new(), 0);
    for seed in 0..FILMS {
        let rng = &mut Seeded::new(seed);
        let stream = rng.pick(&[0, 9, 15, NO_STREAM]);
        let film = beginning::film(rng, stream);
        let (mut palette, mut place) = (vec![0; 768], 0);
        match begin(&film.bytes(), stream, &mut palette, &mut place) {
            Ok(state) => {
                assert_eq!((state.columns, state.rows), (film.size.columns, film.size.rows));
                let opcodes = film.chunks.iter().flat_map(|chunk| &chunk.opcodes);
                sizes.insert(opcodes.take_while(|opcode| opcode.kind != 0x05).count());
            }
            Err(unbegun) => {
                assert_eq!(unbegun.refusal.number, NO_SIZE, "seed {seed}");
                none += 1;
            }
        }
    }
    assert!((0..12).all(|before| sizes.contains(&before)), "{sizes:?}");
    assert!(none > FILMS / 20, "{none}");
}

/// A fault in front of the size is met, one behind it is not.
#[test]
fn damaged_films() {
    let (mut begun, mut numbers) = (0, BTreeSet::new());
    for seed in 0..FILMS {
        let rng = &mut Seeded::new(seed);
        let film = beginning::damaged(rng, 3);
        match begin(&film, 3, &mut [0; 768], &mut 0) {
            Ok(_) => begun += 1,
            Err(unbegun) => drop(numbers.insert(unbegun.refusal.number)),
        }
    }
    assert!(begun > FILMS / 10, "{begun}");
    let expected = BTreeSet::from([1, 2, 3, 4, 5, 6, 7, 9, 17, 18, 21]);
    assert_eq!(numbers, expected);
}
