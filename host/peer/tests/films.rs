//! Seeded films: libavformat and libavcodec give the pictures, colours and samples of the proved
//! library; of films with true colour the low 15 bits of each pixel.

mod common;

use maker::sound::Format;
use maker::words::WordForm;
use maker::Form;
use peer::comparison::Tally;

const SEED: u64 = 1;
const FILMS: u64 = 1000;

#[test]
fn films() {
    if !common::is_there() {
        return;
    }
    let mut tally = Tally::default();
    for number in 0..FILMS {
        let compared = tally.compare(SEED, number);
        compared.unwrap_or_else(|what| panic!("seed {SEED}, film {number}: {what}"));
    }
    assert_eq!(tally.forms, Form::ALL.into(), "{tally}");
    assert_eq!(tally.formats, Format::ALL.into(), "{tally}");
    for size in [(1, 1), (80, 60), (80, 1), (1, 60)] {
        assert!(tally.sizes.contains(&size), "{size:?}: {tally}");
    }
    assert!(tally.pictures >= 10_000 && tally.odd >= 1000, "{tally}");
    assert!(tally.palettes >= 1000 && tally.sounding >= 500, "{tally}");
}

#[test]
fn deep_films() {
    if !common::is_there() {
        return;
    }
    let mut tally = Tally::default();
    for number in 0..FILMS {
        let compared = tally.compare_deep(SEED, number);
        compared.unwrap_or_else(|what| panic!("seed {SEED}, film {number}: {what}"));
    }
    println!("{tally}");
    assert!(tally.forms.is_empty() && tally.word_forms == WordForm::ALL.into(), "{tally}");
    assert_eq!(tally.formats, Format::ALL.into(), "{tally}");
    for size in [(1, 1), (80, 60), (80, 1), (1, 60)] {
        assert!(tally.sizes.contains(&size), "{size:?}: {tally}");
    }
    assert!(tally.pictures >= 10_000 && tally.odd >= 1000 && tally.sounding >= 500, "{tally}");
}
