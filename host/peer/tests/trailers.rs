//! Seeded frames of Microsoft Video 1: libavcodec gives the pictures of the proved library.

mod common;

use peer::trailers::{same, Tally};

const SEED: u64 = 1;
const CASES: u64 = 400;

#[test]
fn frames() {
    if !common::is_there() {
        return;
    }
    let mut tally = Tally::default();
    for number in 0..CASES {
        let compared = tally.compare(SEED, number);
        compared.unwrap_or_else(|what| panic!("seed {SEED}, case {number}: {what}"));
    }
    println!("{tally}");
    assert!(tally.frames == 6 * CASES as usize && tally.sizes.len() >= 50, "{tally}");
    assert!(tally.changed >= 1_000_000 && tally.changed < tally.pixels, "{tally}");
}

/// A planted fault is found.
#[test]
fn faults() {
    let picture = [1, 2, 3];
    assert_eq!(same(Ok(()), &picture, &Ok(vec![1, 2, 3])), Ok(()));
    let found = |ours, theirs| same(ours, &picture, &theirs).expect_err("a difference");
    let other = found(Ok(()), Ok(vec![1, 7, 3]));
    assert_eq!(other, "pixel 1: 2 by the library, 7 by libav");
    assert_eq!(found(Ok(()), Ok(vec![1, 2])), "3 pixels, 2 by libav");
    assert_eq!(found(Ok(()), Err(-22)), "libav says -22");
    let refused = found(Err(mve::Error::EndMark), Ok(vec![1, 2, 3]));
    assert_eq!(refused, mve::Error::EndMark.to_string());
}
