//! Programs that are wrong on purpose are noticed: without this, a test that looks at nothing would
//! pass, too.

use maker::colours::Change;
use maker::sound::Format;
use maker::{Packet, Seeded, WordForm};
use reference::CallForm;
use std::path::Path;
use stops::cases::{Case, Drawing, Walk};
use stops::kills::{kill, Player};
use stops::list::{Prefix, Store};
use stops::made;
use stops::stopped::LENT;
use stops::watch::{watch, Watched};
use stops::wrong::{SavedInPlace, Wrong, WrongDrawing};

/// Two blocks: the left one is copied from where the right one is drawn later.
fn drawn(wrong: Wrong) -> Watched {
    let packet = Packet { columns: 2, rows: 1, map: vec![0xE2], data: vec![0x00, 0x07] };
    let memory = made::memory(&mut Seeded::new(1), LENT);
    let right = Drawing::new(CallForm::Default, packet, memory, 0, usize::MAX);
    let case = WrongDrawing { right, wrong };
    let watched = watch(Path::new(env!("CARGO_BIN_EXE_stops")), &case);
    watched.unwrap_or_else(|error| panic!("{wrong:?}: {error}"))
}

#[test]
fn the_right_order_is_taken() {
    let counts = drawn(Wrong::Nothing).good().expect("nothing is wrong");
    assert!(counts.stores == 130 && counts.changes >= 125, "{counts:?}");
}

#[test]
fn wrong_orders_are_noticed() {
    for wrong in Wrong::ALL {
        let noticed = drawn(wrong).disorder.is_some();
        assert_eq!(noticed, wrong != Wrong::Nothing, "{wrong:?}");
    }
}

/// Pixels of one block may be drawn in any order, and twice: it is drawn again whole.
#[test]
fn wrong_ends_are_noticed() {
    for wrong in Wrong::ALL {
        let ends_well = matches!(wrong, Wrong::Nothing | Wrong::PixelsSwapped | Wrong::PixelTwice);
        assert_eq!(drawn(wrong).wrong_end.is_none(), ends_well, "{wrong:?}");
    }
}

#[test]
fn a_killed_player_that_forgets_the_place_is_noticed() {
    let killed = kill(Path::new(env!("CARGO_BIN_EXE_stops")), Player::BeginsAnew, 1, 100);
    let noticed = killed.expect_err("frames are drawn twice").to_string();
    let faults = ["memory is as no prefix", "not picture"];
    assert!(faults.iter().any(|fault| noticed.starts_with(fault)), "{noticed}");
}

/// A state that is written over the one that went in: a stop in between leaves one that is neither.
#[test]
fn a_state_saved_in_place_is_noticed() {
    let watched = watch(Path::new(env!("CARGO_BIN_EXE_stops")), &SavedInPlace(heard()));
    let watched = watched.unwrap_or_else(|error| panic!("{error}"));
    let disorder = watched.disorder.expect("states that no store leaves");
    assert!(disorder.starts_with("memory is as no prefix"), "{disorder}");
    let wrong_end = watched.wrong_end.expect("a state that no step gives");
    assert!(wrong_end.starts_with("the saved state is none of the film's"), "{wrong_end}");
    assert_eq!(watched.wrong_answer, None); // it is right where nothing stops it
}

/// A walk with sound, compressed: every step goes on from the last samples of the one before.
fn heard() -> Walk {
    made::sound_walk(&mut Seeded::new(1), Format { stereo: true, wide: true, compressed: true })
}

/// A walk of which other samples are expected, by one bit, than the step made anew writes.
#[test]
fn wrong_samples_are_noticed() {
    let walk = heard();
    let mut sounding = 0;
    for (number, step) in walk.steps().iter().enumerate() {
        assert_eq!(walk.go_on(&step.before), Ok(()), "step {number}");
        for byte in 0..step.samples.len() {
            let mut wrong = walk.clone();
            wrong.steps_mut()[number].samples[byte] ^= 1;
            let noticed = wrong.go_on(&step.before).expect_err("another sample is expected");
            let fault = "the samples are not as they are when nothing is stopped";
            assert_eq!(noticed, fault, "step {number}, byte {byte}");
        }
        sounding += usize::from(!step.samples.is_empty());
    }
    assert_eq!(sounding, 4);
}

/// A walk with sound whose saved state has another last sample than the film gives.
#[test]
fn a_foreign_state_is_noticed() {
    let walk = heard();
    let later = walk.steps().iter().filter(|step| step.state.sound.begun);
    let kept: Vec<_> = later.map(|step| step.before.clone()).collect();
    assert!(kept.len() >= 4 && kept.iter().all(|left| walk.go_on(left).is_ok()));
    for mut left in kept {
        let [.., sample, _] = &mut left.state;
        *sample ^= 1;
        let noticed = walk.go_on(&left).expect_err("the state is no step's");
        assert!(noticed.starts_with("the saved state is none of the film's"), "{noticed}");
    }
}

/// Stores of a palette in another order than the list's, one of them left out, or one of another value.
#[test]
fn wrong_palettes_are_noticed() {
    let once = made::change(&mut Seeded::new(3), Change::Run, 20);
    let (found, stores) = (once.found(), once.stores());
    let is_prefix = |made: &[Store]| {
        let mut seen = found.clone();
        made.iter().for_each(|&store| seen.make(store));
        Prefix::new(found.clone(), stores).reach(&seen).is_ok()
    };
    let changes = |store: &Store| match *store {
        Store::Palette { index, value } => found.palette[index] != value,
        _ => false,
    };
    let mut noticed = 0;
    for at in 0..stores.len() {
        assert!(is_prefix(&stores[..at]), "{at}");
        let Store::Palette { index, value } = stores[at] else { panic!("a palette") };
        let other = Store::Palette { index, value: value ^ 0x40 };
        assert!(!is_prefix(&[&stores[..at], &[other]].concat()), "another value, {at}");
        if changes(&stores[at]) && stores.get(at + 1).is_some_and(changes) {
            assert!(!is_prefix(&[&stores[..at], &stores[at + 1..at + 2]].concat()), "{at}");
            noticed += 1;
        }
    }
    assert!(noticed >= 5, "{noticed} of {}", stores.len());
    // Taken again, a step does not set back what it does not store.
    assert_eq!(once.go_on(found), Ok(()));
    let kept = (0..768).find(|&byte| !stores.iter().any(|store| stores_byte(store, byte)));
    let mut left = found.clone();
    left.palette[kept.expect("a byte that is kept")] ^= 1;
    let fault = once.go_on(&left).expect_err("another palette");
    assert!(fault.starts_with("the palette is not"), "{fault}");
}

/// The three bytes of a gradient with one entry may be stored in any order, and no others before them.
#[test]
fn gradients_of_one_entry() {
    let once = made::change(&mut Seeded::new(4), Change::Single, 20);
    let (mut found, stores) = (once.found().clone(), once.stores());
    assert!(stores.len() == 6 && stores.iter().all(|store| matches!(store, Store::Black { .. })));
    let bytes: Vec<usize> = stores.iter().map(|store| black_byte(*store)).collect();
    assert!(bytes[0] != bytes[3], "two entries");
    bytes.iter().for_each(|&byte| found.palette[byte] = 9);
    let is_prefix = |made: &[usize]| {
        let mut seen = found.clone();
        made.iter().for_each(|&at| seen.palette[bytes[at]] = 0);
        Prefix::new(found.clone(), stores).reach(&seen).is_ok()
    };
    for made in [&[][..], &[0], &[1], &[2], &[0, 2], &[1, 2], &[0, 1, 2], &[0, 1, 2, 5]] {
        assert!(is_prefix(made), "{made:?}");
    }
    for made in [&[3][..], &[0, 3], &[1, 2, 3], &[3, 4, 5]] {
        assert!(!is_prefix(made), "{made:?}");
    }
}

/// Stores of words in another order than the list's, one of them left out, or one of another value; and what a
/// new call does not set right: a word of an older picture, or one beyond the frame.
#[test]
fn wrong_words_are_noticed() {
    let raw = WordForm::of(0xB, &[]).expect("a form");
    let [drawing, ..] = made::of_word_form(&mut Seeded::new(5), raw);
    let (found, stores) = (drawing.found(), drawing.stores());
    let is_prefix = |made: &[Store]| {
        let mut seen = found.clone();
        made.iter().for_each(|&store| seen.make(store));
        Prefix::new(found.clone(), stores).reach(&seen).is_ok()
    };
    let changes = |store: &Store| match *store {
        Store::Word { picture, index, value } => found.words[picture][index] != value,
        _ => false,
    };
    let mut noticed = 0;
    for at in 0..130 {
        assert!(is_prefix(&stores[..at]), "{at}");
        let Store::Word { picture, index, value } = stores[at] else { continue };
        let other = Store::Word { picture, index, value: value ^ 0x8000 };
        if found.words[picture][index] != value ^ 0x8000 {
            assert!(!is_prefix(&[&stores[..at], &[other]].concat()), "another value, {at}");
        }
        if changes(&stores[at]) && stores.get(at + 1).is_some_and(changes) {
            assert!(!is_prefix(&[&stores[..at], &stores[at + 1..at + 2]].concat()), "{at}");
            noticed += 1;
        }
    }
    assert!(noticed >= 60, "{noticed} of {}", stores.len());
    assert_eq!(drawing.go_on(found), Ok(()));
    let pixels = drawing.packet().pixels();
    for (picture, at, name) in [(0, 0, "first"), (2, pixels - 1, "third"), (1, pixels, "second")] {
        let mut left = found.clone();
        left.words[picture][at] ^= 0x8000;
        let fault = drawing.go_on(&left).expect_err("another picture");
        assert!(fault.starts_with(&format!("the {name} picture of words is not")), "{fault}");
    }
}

fn black_byte(store: Store) -> usize {
    let Store::Black { index } = store else { panic!("{store:?}") };
    index
}

fn stores_byte(store: &Store, byte: usize) -> bool {
    matches!(store, Store::Palette { index, .. } if *index == byte)
}

/// An opening that is made again where a byte that the film never stores, or the place, is another one.
#[test]
fn wrong_openings_are_noticed() {
    let opening = made::opening(&mut Seeded::new(1), false);
    assert_eq!(opening.go_on(opening.found()), Ok(()));
    let is_stored = |byte: usize| {
        opening.stores().iter().any(|store| match *store {
            Store::Palette { index, .. } | Store::Black { index } => index == byte,
            _ => false,
        })
    };
    let kept = (0..768).find(|&byte| !is_stored(byte)).expect("a byte that is kept");
    let mut left = opening.found().clone();
    left.palette[kept] ^= 1;
    let noticed = opening.go_on(&left).expect_err("another palette");
    assert!(noticed.starts_with("the palette is not"), "{noticed}");
    // The refused opening of a film with the same opcodes stores nothing.
    let refused = made::opening(&mut Seeded::new(1), true);
    assert_eq!(refused.go_on(refused.found()), Ok(()));
    left = refused.found().clone();
    left.place += 1;
    let noticed = refused.go_on(&left).expect_err("another place");
    assert!(noticed.starts_with("the place is not"), "{noticed}");
}
