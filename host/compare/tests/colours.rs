//! Every allowance of a step at 0B, 0C, 0D and 0F (02, W11): allowed n, it makes the first n of its
//! stores, for each n from none to beyond all, and is unfinished exactly where they are too few. In both
//! forms.

mod common;
#[path = "common/colours.rs"]
mod made;

use common::same;
use compare::Step;
use made::at_change;
use maker::colours::Change;
use maker::Seeded;
use reference::cuts::{listed, Memory, Store, PALETTE_STORES};
use reference::palette;
use reference::CallForm;
use std::collections::BTreeSet;

/// The stores of a step, and how many steps were compared.
fn compare(seed: u64, change: Change) -> (Vec<Store>, usize) {
    let (film, start) = at_change(&mut Seeded::new(seed), change);
    let pictures = [start.picture_a.clone(), start.picture_b.clone()];
    let (palette, words) = (start.palette.clone(), start.words.clone());
    let found = Memory { palette, pictures, words, place: start.place };
    let stores = listed(CallForm::Default, &film, &start.state, &found);
    let allowances = (0..stores.len() + 3).chain([312_000, usize::MAX]);
    let mut steps = 0;
    for allowed in allowances {
        let [(answer, left), _] = same((seed, change, allowed), |decoder, form| {
            let mut walk = start.clone();
            walk.allowed = allowed;
            (decoder.step(form, &film, &mut walk), walk)
        });
        let made = allowed.min(stores.len());
        let expected = match made < stores.len() {
            true => Step::Unfinished(made, None),
            false => Step::Taken(made, 0),
        };
        assert_eq!(answer, Ok(expected), "{change:?}, allowed {allowed}");
        let moved = left.state != start.state;
        assert_eq!(moved, made == stores.len(), "{change:?}, allowed {allowed}");
        let listed = found.cut(&stores, made);
        assert!(left.palette == listed.palette, "{change:?}, allowed {allowed}");
        assert_eq!(left.place, listed.place, "{change:?}, allowed {allowed}");
        assert!(left.picture_a == start.picture_a && left.picture_b == start.picture_b);
        steps += 1;
    }
    (stores, steps)
}

/// The bytes of the palette that are stored, each once.
fn bytes(stores: &[Store]) -> BTreeSet<usize> {
    let byte = |store: &Store| match store {
        Store::Colour(palette::Store { index, .. }) => Some(*index),
        _ => None,
    };
    stores.iter().filter_map(byte).collect()
}

#[test]
fn every_allowance() {
    let (mut steps, mut stored_twice) = (0, 0);
    for change in Change::ALL {
        for seed in 0..if change == Change::Longest { 1 } else { 12 } {
            let (stores, compared) = compare(seed, change);
            let none = matches!(change, Change::NoGradient | Change::NoEntry | Change::NoMask);
            assert_eq!(stores.is_empty(), none, "{change:?}");
            assert!(stores.len() <= PALETTE_STORES, "{change:?}");
            assert_eq!(stores.len() == PALETTE_STORES, change == Change::Longest, "{change:?}");
            assert_eq!(stores == [Store::Place(0)], change == Change::Map, "{change:?}");
            let overlap = stores.len() - bytes(&stores).len() - usize::from(change == Change::Map);
            assert!(overlap > 0 || change != Change::Overlapping, "{change:?}, seed {seed}");
            stored_twice += overlap;
            steps += compared;
        }
    }
    println!("{steps} allowances, {stored_twice} bytes stored twice");
    assert!(steps >= 20_000 && stored_twice >= 1000);
}
