//! Opcodes that change the palette or the place, of every kind, and films that are rich in them (02,
//! W11): each is valid by the second decoder, and has the stores that its kind says.

use maker::colours::{self, Change};
use maker::film::{Chunk, Film};
use maker::states::{self, Start};
use maker::{Seeded, Size};
use reference::cuts::{listed, Memory, Store};
use reference::film::{opcode_head, Stepped};
use reference::sound::NO_STREAM;
use reference::{palette, CallForm};
use std::collections::{BTreeMap, BTreeSet};

fn stores(film: &[u8], start: &Start) -> Vec<Store> {
    let Start { state, palette, picture_a, picture_b, place, words, .. } = start.clone();
    let memory = Memory { palette, pictures: [picture_a, picture_b], words, place };
    listed(CallForm::Default, film, &state, &memory)
}

/// The bytes of the palette that are stored, each once.
fn bytes(stores: &[Store]) -> BTreeSet<usize> {
    let byte = |store: &Store| match store {
        Store::Colour(palette::Store { index, .. }) => Some(*index),
        _ => None,
    };
    stores.iter().filter_map(byte).collect()
}

#[test]
fn every_kind() {
    for change in Change::ALL {
        let mut counts = BTreeSet::new();
        for seed in 0..200 {
            let rng = &mut Seeded::new(seed);
            let opcodes = vec![change.opcode(rng)];
            let kind = opcodes[0].kind;
            let chunks = vec![Chunk { opcodes, ..Chunk::default() }];
            let size = Size::new(1, 1);
            let film = Film { size, stream: NO_STREAM, chunks, tail: Vec::new() };
            let (film, mut start) = (film.bytes(), states::opening(rng, &film));
            (start.state.position, start.state.chunk_end) = (30, film.len());
            let stores = stores(&film, &start);
            let (count, entries) = (stores.len(), bytes(&stores).len());
            let stepped = start.step(&film);
            let taken = matches!(stepped, Stepped::Taken(_, made, 0) if made == count);
            assert!(taken, "{change:?}, seed {seed}: {stepped:?}");
            let is = match change {
                Change::RedBlue | Change::RedGreen | Change::Both => {
                    kind == 0x0B && count == entries && count >= 6
                }
                Change::Overlapping => kind == 0x0B && count > entries,
                Change::Single => kind == 0x0B && count == 6,
                Change::Longest => kind == 0x0B && (count, entries) == (1536, 768),
                Change::NoGradient => kind == 0x0B && count == 0,
                Change::Run => kind == 0x0C && (3..=36).contains(&count) && count == entries,
                Change::AllEntries => kind == 0x0C && (count, entries) == (768, 768),
                Change::NoEntry => kind == 0x0C && count == 0,
                Change::Masks => kind == 0x0D && (3..=48).contains(&count) && count == entries,
                Change::AllMasks => kind == 0x0D && (count, entries) == (768, 768),
                Change::NoMask => kind == 0x0D && count == 0,
                Change::Map => kind == 0x0F && stores == [Store::Place(0)],
            };
            assert!(is, "{change:?}, seed {seed}: {count} stores to {entries} bytes");
            counts.insert(count);
        }
        let any = [Change::RedBlue, Change::RedGreen, Change::Both, Change::Run, Change::Masks];
        assert_eq!(counts.len() > 5, any.contains(&change), "{change:?}: {counts:?}");
    }
}

/// Films: valid, with every kind of opcode, and cut often in each where they are walked into.
#[test]
fn films() {
    let (mut taken, mut cut) = (BTreeMap::new(), BTreeMap::new());
    for seed in 0..300 {
        let rng = &mut Seeded::new(seed);
        let film = colours::film(rng, 2);
        let (bytes, mut start) = (film.bytes(), states::opening(rng, &film));
        loop {
            let head = opcode_head(&bytes, start.state.position, start.state.chunk_end);
            match start.step(&bytes) {
                Stepped::Taken(state, ..) | Stepped::Whole(state, ..) => start.state = state,
                Stepped::Ended(_) => break,
                other => panic!("seed {seed}: {other:?}"),
            }
            *taken.entry(head.ok().map(|head| head.kind)).or_insert(0) += 1;
        }
        let mut middle = states::middle(rng, &film);
        let head = opcode_head(&bytes, middle.state.position, middle.state.chunk_end);
        if let (Ok(head), Stepped::Unfinished(..)) = (head, middle.step(&bytes)) {
            *cut.entry(head.kind).or_insert(0) += 1;
        }
    }
    println!("taken {taken:?}, cut {cut:?}");
    for kind in [0x05, 0x07, 0x0B, 0x0C, 0x0D, 0x0F, 0x11] {
        assert!(taken.get(&Some(kind)).is_some_and(|&times| times >= 100), "{kind:02X}");
    }
    for kind in [0x0B, 0x0C, 0x0D, 0x11] {
        assert!(cut.get(&kind).is_some_and(|&times| times >= 5), "{kind:02X}: {cut:?}");
    }
}
