//! The film of the demonstration, and the encoder that makes it.

use maker::film::{ACTED_ON, SOUND};
use maker::packet::Draft;
use maker::{demo, encode, Form, Packet, Profile, Seeded, Size};
use reference::film::{opcode_head, open, shown, step, Lent, Stepped};
use reference::{draw, listing};
use std::collections::BTreeSet;

/// The film sends the pictures that it is made from, in order, each with its samples behind those of
/// the one before, and ends.
#[test]
fn pictures_and_samples() {
    let film = demo::film().bytes();
    let mut state = open(&film, demo::STREAM).expect("a header");
    let (mut palette, mut place) = ([0; 768], 0);
    let (mut a, mut b) = (vec![0; demo::SIZE.pixels()], vec![0; demo::SIZE.pixels()]);
    let mut room = vec![0; 2 * demo::SAMPLES];
    let (mut sent, mut kinds, mut heard) = (0, BTreeSet::new(), Vec::<u8>::new());
    loop {
        kinds.extend(opcode_head(&film, state.position, state.chunk_end).map(|head| head.kind));
        let lent = Lent {
            palette: &mut palette,
            picture_a: &mut a,
            picture_b: &mut b,
            place: &mut place,
            room: &mut room,
            words: Default::default(),
        };
        match step(&film, state, lent, 312_000) {
            Stepped::Taken(next, _, bytes) => {
                heard.extend(&room[..bytes]);
                if next.front != state.front {
                    assert!(shown(&next, &a, &b) == demo::picture(sent), "picture {sent}");
                    assert!(heard == demo::samples(sent), "samples of picture {sent}");
                    heard.clear();
                    sent += 1;
                }
                state = next;
            }
            Stepped::Whole(next, ..) => state = next,
            Stepped::Ended(_) => break,
            other => panic!("{other:?}"),
        }
    }
    assert_eq!(sent, demo::FRAMES);
    assert_eq!((state.position, place), (film.len(), demo::SIZE.blocks()));
    assert!(ACTED_ON.iter().chain(&SOUND).all(|kind| kinds.contains(kind)), "{kinds:?}");
}

/// The sound lasts as long as the pictures, is loud where the ball bounces, and no two samples are so
/// far apart that it would click.
#[test]
fn tone() {
    let film = demo::film().bytes();
    let played = reference::pictures::play(&film, demo::STREAM);
    let [recording] = &played.recordings[..] else { panic!("one recording") };
    assert_eq!((recording.stereo, recording.wide, recording.rate), (false, true, 22_050));
    // Timer: 100,000 microseconds a picture.
    assert_eq!(recording.samples.len(), 2 * 22_050 * demo::FRAMES / 10);
    let sample = |pair: &[u8]| i32::from(i16::from_le_bytes([pair[0], pair[1]]));
    let samples: Vec<i32> = recording.samples.chunks_exact(2).map(sample).collect();
    for bounce in samples.chunks(22_050) {
        let loudest = |samples: &[i32]| samples.iter().map(|sample| sample.abs()).max();
        assert!((8000..=9000).contains(&loudest(&bounce[..500]).expect("samples")));
        assert!(loudest(&bounce[21_000..]).expect("samples") < 500);
    }
    assert!(samples.windows(2).all(|pair| (pair[1] - pair[0]).abs() < 1000));
}

/// The listing program takes the film's beginning to its end, and it begins as the film does.
#[test]
fn beginning_listed_in_full() {
    let (film, beginning) = (demo::film(), demo::beginning(demo::LISTED));
    let bytes = beginning.bytes();
    assert!(bytes.len() <= listing::MAX_FILM && demo::SIZE.pixels() <= listing::MAX_PIXELS);
    assert!(listing::list(&bytes).ends_with(&format!("\nended {}\n", bytes.len())));
    assert!(film.bytes().starts_with(&bytes[..bytes.len() - 8]), "all but the chunk with 00");
    assert_eq!(reference::pictures::play(&bytes, demo::STREAM).pictures.len(), demo::LISTED);
}

/// Copies from either picture, patterns, raw and dithered blocks are in it.
#[test]
fn many_codes() {
    let film = demo::film();
    let maps = film.chunks.iter().flat_map(|chunk| &chunk.opcodes).filter(|o| o.kind == 0x0F);
    let codes = maps.flat_map(|map| &map.body).flat_map(|byte| [byte & 0x0F, byte >> 4]);
    let codes: BTreeSet<u8> = codes.collect();
    assert!(codes.is_superset(&[0, 1, 2, 4, 5, 7, 8, 9, 0xA, 0xB, 0xE, 0xF].into()), "{codes:?}");
}

/// The codes of a picture, counted from 0.
fn codes_of(number: usize) -> BTreeSet<u8> {
    let film = demo::film();
    let mut maps = film.chunks.iter().flat_map(|chunk| &chunk.opcodes).filter(|o| o.kind == 0x0F);
    let map = maps.nth(number).expect("a map");
    map.body.iter().flat_map(|byte| [byte & 0x0F, byte >> 4]).collect()
}

/// No picture copies from one that was not sent before it: libavcodec has none there (docs/PEERS.md).
#[test]
fn first_pictures_copy_from_none() {
    assert!(codes_of(0).is_disjoint(&[0, 1, 2, 4, 5].into()), "{:?}", codes_of(0));
    assert!(codes_of(1).is_disjoint(&[1, 2].into()), "{:?}", codes_of(1));
}

/// Behind each 0B and 0D stands a 0C of the same colours, so that players which pass over those show
/// the same: without them, and with them last, the pictures stay.
#[test]
fn colours_come_by_0c_too() {
    let film = demo::film();
    let played = reference::pictures::play(&film.bytes(), demo::STREAM);
    let (mut without, mut last) = (film.clone(), film);
    for chunk in &mut without.chunks {
        chunk.opcodes.retain(|opcode| !matches!(opcode.kind, 0x0B | 0x0D));
    }
    let mut turned = 0;
    for chunk in &mut last.chunks {
        for at in 1..chunk.opcodes.len() {
            if matches!(chunk.opcodes[at - 1].kind, 0x0B | 0x0D) {
                assert_eq!(chunk.opcodes[at].kind, 0x0C);
                chunk.opcodes.swap(at - 1, at);
                turned += 1;
                break;
            }
        }
    }
    assert_eq!(turned, 1 + 4, "the gradients, and the ball's four colours");
    for film in [without, last] {
        let again = reference::pictures::play(&film.bytes(), demo::STREAM);
        assert!(again.refusal.is_none() && again.pictures == played.pictures);
    }
}

/// Whatever a packet draws, the encoder's packet draws the same, by all of its forms.
#[test]
fn encoded_exactly() {
    let mut forms = BTreeSet::new();
    for seed in 0..100 {
        let rng = &mut Seeded::new(seed);
        let size = Size::new(rng.between(1, 6), rng.between(1, 6));
        let (front, back) = (rng.bytes(size.pixels()), rng.bytes(size.pixels()));
        let drawn = |draft: &Draft| {
            let (made, mut picture) = (draft.packet(), back.clone());
            let Packet { columns, rows, map, data } = &made;
            let drawn = draw(*columns, *rows, map, data, &front, &mut picture, &mut 0, 312_000);
            assert!(drawn.is_ok_and(|drawn| drawn.whole), "seed {seed}");
            picture
        };
        let wanted = drawn(&Draft::make(rng, size, Profile::Mixed));
        let encoded = encode::packet(size, &wanted, &front, &back);
        assert!(drawn(&encoded) == wanted, "seed {seed}");
        forms.extend(encoded.blocks.iter().map(|block| Form::of(block.code, &block.data)));
    }
    assert_eq!(forms.len(), 15, "{forms:?}");
}
