//! Frames of Microsoft Video 1: by the second program each gives the picture, or the refusal, that it was made
//! for.

use maker::trailers::{
    blocks, codes, damaged, encoded, hostile, picture, skip, valid, Codes, Damage, LONGEST_SKIP,
};
use maker::{Seeded, Size};
use reference::refusal;
use reference::video1::decode;
use std::collections::BTreeSet;

const FRAMES: u64 = 2_000;

#[test]
fn pictures_are_known_by_construction() {
    let (mut pixels, mut codes) = (0, BTreeSet::new());
    for seed in 0..FRAMES {
        let rng = &mut Seeded::new(seed);
        let size = if rng.one_in(100) { Size::new(80, 60) } else { Size::small(rng) };
        let before = rng.bytes(size.pixels());
        let wanted = picture(rng, size, &before);
        let data = encoded(rng, size, &before, &wanted).expect("blocks of few colours");
        let mut drawn = before.clone();
        assert_eq!(decode(size.columns, size.rows, &data, &mut drawn), Ok(()), "seed {seed}");
        assert!(drawn == wanted, "seed {seed}");
        pixels += drawn.len();
        codes.extend(data.chunks_exact(2).map(|code| code[1] >> 4));
    }
    assert!(pixels > 1_000_000 && codes.len() == 16, "{pixels} pixels, {codes:?}");
}

#[test]
fn a_block_of_many_colours_has_no_code() {
    let size = Size::new(1, 1);
    let (before, mut wanted) = (vec![0; 64], vec![7; 64]);
    wanted[56..58].copy_from_slice(&[1, 2]);
    assert_eq!(encoded(&mut Seeded::new(1), size, &before, &wanted), None);
    wanted[57] = 1;
    assert!(encoded(&mut Seeded::new(1), size, &before, &wanted).is_some());
}

/// The second bytes of the codes of a frame, and the skips.
fn met(data: &[u8], ends: &[usize]) -> (Vec<u8>, Vec<usize>) {
    let starts = [0].iter().chain(ends).take(ends.len());
    let heads: Vec<[u8; 2]> = starts.map(|&at| [data[at], data[at + 1]]).collect();
    let skips = heads.iter().filter(|head| (0x84..0x88).contains(&head[1]));
    let skips = skips.map(|head| (usize::from(head[1]) - 0x84) * 256 + usize::from(head[0]));
    (heads.iter().map(|head| head[1]).collect(), skips.collect())
}

/// Every second byte of a code and every length of a skip is made.
#[test]
fn every_code_is_made() {
    let (mut seconds, mut lengths) = (BTreeSet::new(), BTreeSet::new());
    for seed in 0..400 {
        let rng = &mut Seeded::new(seed);
        let kind = if seed % 2 == 0 { Codes::Mix } else { Codes::Skips };
        let (data, ends) = codes(rng, Size::new(80, 60), kind);
        let (heads, skips) = met(&data, &ends);
        seconds.extend(heads);
        lengths.extend(skips);
    }
    assert_eq!(seconds.len(), 256);
    assert_eq!(lengths.len(), LONGEST_SKIP + 1);
    assert_eq!((skip(0), skip(5), skip(1023)), ([0, 0x84], [5, 0x84], [0xFF, 0x87]));
}

#[test]
fn valid_frames_are_taken() {
    for (seed, kind) in (0..200)
        .zip([Codes::One, Codes::Two, Codes::Eight, Codes::Skips, Codes::Mix].iter().cycle())
    {
        let rng = &mut Seeded::new(seed);
        let size = Size::any(rng);
        let data = valid(rng, size, *kind);
        let mut picture = vec![0; size.pixels()];
        assert_eq!(decode(size.columns, size.rows, &data, &mut picture), Ok(()), "seed {seed}");
    }
}

#[test]
fn damages_have_their_numbers() {
    for seed in 0..FRAMES {
        let rng = &mut Seeded::new(seed);
        let size = Size::small(rng);
        for damage in Damage::ALL {
            let data = damaged(rng, size, damage);
            let mut picture = vec![0; size.pixels()];
            let refused = decode(size.columns, size.rows, &data, &mut picture);
            let number = refused.expect_err("a fault").number;
            assert_eq!(number, damage.number(), "seed {seed}, {damage:?}");
        }
    }
}

/// Hostile frames meet every refusal, and some are taken.
#[test]
fn hostile_frames() {
    let mut answers = BTreeSet::new();
    for seed in 0..FRAMES {
        let rng = &mut Seeded::new(seed);
        let size = Size::new(rng.between(1, 2), 1);
        let data = hostile(rng, size);
        assert!(data.len() <= 6 * blocks(size) + 6);
        let mut picture = vec![0; size.pixels()];
        let answer = decode(size.columns, size.rows, &data, &mut picture);
        answers.insert(answer.map_err(|refused| refused.number).err());
    }
    let all = [refusal::FRAME_SHORT, refusal::SKIP_OUTSIDE, refusal::END_MARK].map(Some);
    assert!(all.iter().all(|number| answers.contains(number)), "{answers:?}");
    assert!(answers.contains(&None), "one is taken");
}
