//! Seeded films before and after the library has dropped what its player passes over: libavformat and
//! libavcodec play both alike, and would be found out if they did not.

mod common;

use peer::film::{plain, STREAM};
use peer::strips::{same, stripped, Tally};
use peer::{libav, ours};

const SEED: u64 = 3;
const FILMS: u64 = 300;

#[test]
fn films() {
    if !common::is_there() {
        return;
    }
    let mut tally = Tally::default();
    for number in 0..FILMS {
        let compared = tally.compare(SEED, number);
        compared.unwrap_or_else(|what| panic!("seed {SEED}, film {number}: {what}"));
    }
    println!("{tally:?}");
    assert!(tally.pictures >= 3000 && tally.sounding >= 150, "{tally:?}");
    assert!(tally.bytes[1] < tally.bytes[0], "{tally:?}");
}

/// A film without its sound, and one without its last chunk with a picture.
#[test]
fn what_is_missing_is_found() {
    let films = (2..).map(|number| plain(SEED, number)).filter(|film| film.format.is_some());
    let film = films
        .take(100)
        .find(|film| !ours::play(&film.film.bytes(), STREAM).played.sound.is_empty());
    let mut film = film.expect("a film with sound").film;
    let play = |film: &[u8]| match common::is_there() {
        true => libav::play(film).expect("a film that libav opens").played,
        false => ours::play(film, STREAM).played,
    };
    let before = play(&film.bytes());
    let silent = play(&stripped(&film.bytes(), mve::NO_STREAM).expect("a sane film"));
    assert!(same(&before, &silent).is_err_and(|what| what.starts_with("pictures and formats")));
    let last = film.chunks.iter().rposition(|chunk| chunk.opcodes.iter().any(|o| o.kind == 0x07));
    film.chunks.remove(last.expect("a picture"));
    assert!(same(&before, &play(&film.bytes())).is_err());
    assert_eq!(same(&before, &before), Ok(()));
}
