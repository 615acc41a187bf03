//! The exported calls, stopped after every machine instruction: memory is always as a prefix of the
//! listed stores leaves it, and a new call ends as if nothing had been stopped.

use maker::colours::Change;
use maker::sound::Format;
use maker::{Form, Profile, Seeded, WordForm, WordProfile};
use reference::packet::{blocks, left_over};
use reference::word_packet::{parts, word_blocks};
use reference::CallForm;
use std::collections::BTreeSet;
use std::path::Path;
use stops::cases::{Case, Drawing, Walk};
use stops::list::Store;
use stops::made;
use stops::watch::{watch, Counts};
use stops::words::WordDrawing;

/// Steps a case. Nothing was looked at where no instruction was stepped.
#[track_caller]
fn stepped(name: &str, case: &dyn Case) -> Counts {
    let watched = watch(Path::new(env!("CARGO_BIN_EXE_stops")), case);
    let watched = watched.unwrap_or_else(|error| panic!("{name}: {error}"));
    let counts = watched.good().unwrap_or_else(|fault| panic!("{name}: {fault}"));
    assert!(counts.instructions >= 100, "{name}: {counts:?}");
    counts
}

/// The forms of a packet's blocks.
fn forms(drawing: &Drawing) -> Vec<Form> {
    let maker::Packet { columns, rows, map, data } = drawing.packet();
    let blocks = blocks(*columns, *rows, map, data).expect("a valid packet");
    blocks.iter().map(|block| Form::of(block.code, block.data).expect("a form")).collect()
}

/// The bytes that a packet leaves over.
fn over(drawing: &Drawing) -> usize {
    let maker::Packet { columns, rows, map, data } = drawing.packet();
    left_over(*columns, *rows, map, data).expect("a valid packet")
}

/// The form of the block in which a drawing stops.
fn stopped_in(drawing: &Drawing) -> Option<Form> {
    let is_place = |store: &&Store| matches!(store, Store::Place(_));
    let block = drawing.found().place + drawing.stores().iter().filter(is_place).count();
    let in_block = matches!(drawing.stores().last(), Some(Store::Pixel { .. }));
    in_block.then(|| forms(drawing)[block])
}

#[test]
fn drawings_of_every_form() {
    let mut all = Counts::default();
    for (seed, form) in (0..).zip(Form::ALL) {
        let drawings = made::of_form(&mut Seeded::new(seed), form);
        assert!(forms(&drawings[0]).contains(&form), "{form:?}");
        let calls = drawings.each_ref().map(|drawing| (drawing.form(), over(drawing)));
        let [default, strict] = CallForm::ALL;
        assert_eq!(calls, [(default, 1), (default, 0), (strict, 0)]);
        let has_pixels = form != Form::Untouched;
        let stops = drawings.iter().any(|drawing| stopped_in(drawing) == Some(form));
        assert_eq!(stops, has_pixels, "{form:?}");
        for (number, drawing) in drawings.iter().enumerate() {
            let counts = stepped(&format!("{form:?}, {number}"), drawing);
            // However wide the stores that the compiler merges into one: a few are seen.
            let least =
                if has_pixels { drawing.stores().len() / 32 } else { drawing.stores().len() };
            assert!(counts.changes >= least, "{form:?}, {number}: {counts:?}");
            all += counts;
        }
    }
    println!("{all:?}");
    assert!(all.cases == 69 && all.instructions >= 30_000 && all.changes >= 1000);
}

/// The forms of the blocks of a packet with true colour.
fn word_forms(drawing: &WordDrawing) -> Vec<WordForm> {
    let maker::Packet { columns, rows, map, data } = drawing.packet();
    let blocks = word_blocks(*columns, *rows, map, data).expect("a valid packet");
    let mut left = parts(data).expect("two parts");
    let form = |code| {
        let form = WordForm::of(code, left.first).expect("a form");
        left.block(code).expect("all its bytes");
        form
    };
    blocks.iter().map(|block| block.code).map(form).collect()
}

/// With true colour every block has 65 stores, code 1 too.
#[test]
fn drawings_of_every_word_form() {
    let mut all = Counts::default();
    for (seed, form) in (0..).zip(WordForm::ALL) {
        let drawings = made::of_word_form(&mut Seeded::new(seed), form);
        assert!(word_forms(&drawings[0]).contains(&form), "{form:?}");
        let [default, strict] = CallForm::ALL;
        assert_eq!(drawings.each_ref().map(WordDrawing::form), [default, default, strict]);
        assert_eq!(drawings.each_ref().map(|drawing| drawing.stores().len()), [260, 29, 94]);
        for (number, drawing) in drawings.iter().enumerate() {
            let counts = stepped(&format!("{form:?}, {number}"), drawing);
            // However wide the stores that the compiler merges into one: a few are seen.
            let least = drawing.stores().len() / 32;
            assert!(counts.changes >= least, "{form:?}, {number}: {counts:?}");
            all += counts;
        }
    }
    println!("{all:?}");
    assert!(all.cases == 72 && all.instructions >= 30_000 && all.changes >= 1000);
}

#[test]
fn drawings_of_any_words() {
    let mut all = Counts::default();
    let mut behind = 0;
    for seed in 0..30 {
        let drawing = made::word_drawing(&mut Seeded::new(seed));
        behind += usize::from(drawing.found().place > 0);
        all += stepped(&format!("seed {seed}"), &drawing);
    }
    println!("{all:?}, {behind} of them behind the first block");
    assert!(all.instructions >= 20_000 && all.changes >= 300 && behind >= 5);
}

/// Three frames, so that each of the three pictures is drawn on, older and shown, by steps of either form.
#[test]
fn walks_with_true_colour() {
    let mut all = Counts::default();
    for (seed, profile) in (0..).zip(WordProfile::MANY) {
        for (allowed, call) in [(usize::MAX, CallForm::Default), (70, CallForm::Strict)] {
            let walk = made::word_walk(&mut Seeded::new(seed), call, profile, allowed);
            let drawn: BTreeSet<usize> = walk
                .stores()
                .iter()
                .filter_map(|store| match store {
                    Store::Word { picture, .. } => Some(*picture),
                    _ => None,
                })
                .collect();
            assert_eq!(drawn, BTreeSet::from([0, 1, 2]), "{profile:?}");
            all += stepped(&format!("{profile:?}, allowed {allowed}, {call:?}"), &walk);
        }
    }
    println!("{all:?}");
    assert!(all.instructions >= 30_000 && all.changes >= 500);
}

#[test]
fn drawings_of_any_blocks() {
    let mut all = Counts::default();
    let (mut padded, mut strict) = (0, 0);
    for seed in 0..50 {
        let drawing = made::drawing(&mut Seeded::new(seed));
        padded += over(&drawing);
        strict += usize::from(drawing.form() == CallForm::Strict);
        all += stepped(&format!("seed {seed}"), &drawing);
    }
    println!("{all:?}, {padded} of padded packets, {strict} by strict calls");
    assert!(all.instructions >= 30_000 && all.changes >= 500 && padded >= 5 && strict >= 10);
}

/// The second block of each frame is begun by one step and drawn by the next. Every other film is walked
/// over by strict steps; in the others a packet is padded.
#[test]
fn films_of_every_form() {
    let mut all = Counts::default();
    for (seed, form) in (0..).zip(Form::ALL) {
        let call = CallForm::ALL[seed as usize % 2];
        let walk = made::walk(&mut Seeded::new(seed), call, Profile::Only(form), 65 + 29);
        all += stepped(&format!("{form:?}, {call:?}"), &walk);
    }
    println!("{all:?}");
    assert!(all.instructions >= 50_000 && all.changes >= 1000);
}

#[test]
fn films_of_any_blocks() {
    let mut all = Counts::default();
    for (seed, profile) in (0..).zip(Profile::MANY) {
        for (allowed, call) in [65, usize::MAX].into_iter().zip(CallForm::ALL) {
            let walk = made::walk(&mut Seeded::new(seed), call, profile, allowed);
            all += stepped(&format!("{profile:?}, allowed {allowed}, {call:?}"), &walk);
        }
    }
    println!("{all:?}");
    assert!(all.instructions >= 30_000 && all.changes >= 500);
}

/// Among them gradients of one entry and two that overlap.
#[test]
fn palettes() {
    let mut all = Counts::default();
    let mut twice = 0;
    for seed in 0..10 {
        let walk: Walk = made::palette_walk(&mut Seeded::new(seed));
        let stores = walk.stores();
        twice += stores.iter().filter(|&store| overlaps(store, stores)).count();
        all += stepped(&format!("seed {seed}"), &walk);
    }
    println!("{all:?}, {twice} bytes stored twice");
    assert!(all.instructions >= 10_000 && all.changes >= 200 && twice >= 5);
}

/// One step at an opcode of every kind that changes the palette or the place, allowed none of its stores,
/// some, all but few, all, and more; of the longest ones some, and more than all.
#[test]
fn changes_of_every_kind() {
    let mut all = Counts::default();
    let mut answers = BTreeSet::new();
    for (seed, change) in (0..).zip(Change::ALL) {
        let long = [Change::Longest, Change::AllEntries, Change::AllMasks].contains(&change);
        for &tenths in if long { &[4, 20][..] } else { &[0, 4, 9, 10, 20] } {
            let once = made::change(&mut Seeded::new(seed), change, tenths);
            let kind = once.opcode().expect("an opcode");
            let word = once.answer().split(' ').next().expect("a word");
            answers.insert((kind, word.to_string()));
            all += stepped(&format!("{change:?}, {tenths} tenths"), &once);
        }
    }
    println!("{all:?}, {answers:?}");
    let both = |kind| ["taken", "unfinished"].map(|word| (kind, word.to_string()));
    let expected: BTreeSet<_> = [0x0B, 0x0C, 0x0D, 0x0F].into_iter().flat_map(both).collect();
    assert_eq!(answers, expected);
    assert!(all.cases == 61 && all.instructions >= 20_000 && all.changes >= 3000, "{all:?}");
}

/// All is judged before the first store, so an opening that is refused stores nothing but the answer; one
/// that is stopped while it stores is made again.
#[test]
fn openings() {
    let (mut all, mut refused) = (Counts::default(), Counts::default());
    for seed in 0..12 {
        let is_refused = seed % 4 == 0;
        let opening = made::opening(&mut Seeded::new(seed), is_refused);
        assert_eq!(opening.answer().starts_with("refused 7"), is_refused, "{}", opening.answer());
        let places = opening.stores().iter().filter(|store| matches!(store, Store::Place(0)));
        assert_eq!(places.count(), usize::from(!is_refused));
        let counts = stepped(&format!("seed {seed}"), &opening);
        *(if is_refused { &mut refused } else { &mut all }) += counts;
    }
    println!("{all:?}, refused: {refused:?}");
    assert!(all.instructions >= 50_000 && all.changes >= 200);
    assert!(refused.instructions >= 5000 && refused.changes == 0);
}

/// Sound makes no store to what is kept but the state; the step made anew writes the same samples.
#[test]
fn sounds_of_every_format() {
    let (mut all, mut samples) = (Counts::default(), 0);
    for (seed, format) in (0..).zip(Format::ALL) {
        let walk = made::sound_walk(&mut Seeded::new(seed), format);
        assert!(walk.stores().iter().all(|store| matches!(store, Store::State(_))));
        let written: Vec<_> = walk.steps().iter().map(|step| step.samples.len()).collect();
        assert_eq!(written.iter().filter(|&&bytes| bytes > 0).count(), 4, "{format:?}");
        samples += written.iter().sum::<usize>();
        all += stepped(&format!("{format:?}"), &walk);
    }
    println!("{all:?}, {samples} bytes of samples");
    assert!(all.instructions >= 5000 && samples >= 100);
}

/// Whether a byte of the palette is stored with another value, too.
fn overlaps(store: &Store, stores: &[Store]) -> bool {
    let Store::Palette { index, value } = *store else { return false };
    stores.iter().any(|other| match *other {
        Store::Palette { index: same, value: another } => same == index && another != value,
        _ => false,
    })
}
