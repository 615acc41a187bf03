//! `mve why`: at each link of the chain the byte or the pixel named holds the value of the pixel shown,
//! by the second program; and what is said where there is no chain.

mod common;

use common::chains::{follow, Reached};
use common::drawings::drawings;
use common::{mve, with_film};
use maker::film::{self, Film};
use maker::{demo, Profile, Seeded, Size};
use std::path::Path;

/// The chain of a pixel, as lines.
fn why(folder: &Path, picture: usize, x: usize, y: usize) -> Vec<String> {
    let [picture, x, y] = [picture, x, y].map(|number| number.to_string());
    let ran = mve(folder, &["why", "film.mve", &picture, &x, &y]);
    ran.assert_silent();
    ran.text().lines().map(String::from).collect()
}

/// Every pixel of the last picture of a film, and some of the others.
fn every_pixel(name: &str, film: &Film, reached: &mut Reached) {
    let film = film.bytes();
    let folder = with_film(name, &film);
    let (all, sent) = drawings(&film);
    for (number, picture) in sent.iter().enumerate() {
        let step = if number + 1 == sent.len() { 1 } else { 37 };
        for pixel in (0..picture.pixels.len()).step_by(step) {
            let at = (pixel % picture.width, pixel / picture.width);
            let lines = why(&folder, number, at.0, at.1);
            follow(&film, &all, picture, number, at, &lines, reached);
        }
    }
}

#[test]
fn chains() {
    let mut reached = Reached::default();
    let rng = &mut Seeded::new(90);
    for profile in Profile::MANY {
        every_pixel("why", &film::plain(rng, Size::new(2, 2), profile, 4), &mut reached);
    }
    // With frames that are drawn over before they are sent, and other opcodes between.
    let mut films = 0;
    while films < 6 {
        let film = film::with_frames(rng, 5);
        if film.size.blocks() <= 4 {
            every_pixel("why", &film, &mut reached);
            films += 1;
        }
    }
    println!("{reached:?}");
    assert!(reached.bytes > 500 && reached.lent > 20 && reached.longest > 4);
    for (code, times) in reached.codes.iter().enumerate() {
        assert!(*times >= 20 || code == 6, "code {code:X} reached {times} times");
    }
}

/// The demonstration: long chains through kept blocks, and copies.
#[test]
fn demonstration() {
    let mut reached = Reached::default();
    let film = demo::beginning(20).bytes();
    let folder = with_film("why_demo", &film);
    let (all, sent) = drawings(&film);
    let rng = &mut Seeded::new(91);
    for _ in 0..200 {
        let number = rng.below(sent.len());
        let picture = &sent[number];
        let at = (rng.below(picture.width), rng.below(picture.height));
        let lines = why(&folder, number, at.0, at.1);
        follow(&film, &all, picture, number, at, &lines, &mut reached);
    }
    println!("{reached:?}");
    assert!(reached.bytes == 200 && reached.longest > 5);
}

/// A film by hand: one picture of two blocks, the right one copied from the left one.
#[test]
fn by_hand() {
    let film = [
        &b"Interplay MVE File\x1A\0\x1A\0\0\x01\x33\x11"[..],
        &[52, 0, 3, 0],
        &[4, 0, 0x05, 0, 2, 0, 1, 0],
        &[7, 0, 0x0C, 0, 42, 0, 1, 0, 0, 63, 16],
        &[1, 0, 0x0F, 0, 0x3E],
        &[16, 0, 0x11, 0],
        &[0; 14],
        &[42, 0],
        &[4, 0, 0x07, 0, 0, 0, 0, 0],
    ]
    .concat();
    let folder = with_film("why_by_hand", &film);
    let expected = [
        "film.mve, picture 0, pixel 11, 5: entry 42, red 0, green 63, blue 16 of 63 (#00FF41)",
        "PICTURE    X    Y  BLOCK  CODE  ORIGIN",
        "      0   11    5      1     3  copied from 3, 5 of picture 0",
        "      0    3    5      0     E  byte 72 of the film, byte 0 of its packet",
    ];
    assert_eq!(why(&folder, 0, 11, 5), expected);
    assert_eq!(film[72], 42);
}

/// A position outside, a picture that is never sent, and films that are refused.
#[test]
fn messages() {
    let folder = with_film("why_not", &demo::beginning(3).bytes());
    let said = |words: &[&str]| {
        let ran = mve(&folder, &[&["why", "film.mve"], words].concat());
        assert!(ran.out.is_empty());
        (ran.code, ran.err)
    };
    let outside =
        "mve: film.mve: the pictures are 128x96: give X from 0 to 127 and Y from 0 to 95\n";
    for words in [["0", "128", "0"], ["2", "0", "96"], ["1", "99999999999", "0"]] {
        assert_eq!(said(&words), (Some(2), outside.into()), "{words:?}");
    }
    let not_sent = "mve: film.mve: the film sends pictures 0 to 2 only: give one of these\n";
    assert_eq!(said(&["3", "0", "0"]), (Some(1), not_sent.into()));
    for words in [&["0", "0"][..], &["0", "-1", "0"], &["0", "x", "0"], &["0", "0", "0", "0"]] {
        assert_eq!(said(words).0, Some(2), "{words:?}");
    }

    let mut film = demo::beginning(6);
    film.chunks[5].opcodes[0].body[35] = 0x16;
    let folder = with_film("why_refused", &film.bytes());
    assert_eq!(mve(&folder, &["why", "film.mve", "2", "0", "0"]).code, Some(0));
    let ran = mve(&folder, &["why", "film.mve", "3", "0", "0"]);
    assert!(ran.err.contains("refusal 12 at byte ") && ran.code == Some(1), "{ran:?}");
    assert!(ran.err.ends_with(" Pictures 0 to 2 come before it.\n"), "{}", ran.err);

    let folder = with_film("why_no_film", b"RIFF....AVI LIST");
    let ran = mve(&folder, &["why", "film.mve", "0", "0", "0"]);
    let message =
        "mve: film.mve: refusal 1 at byte 0: the film does not begin with the header of an \
                   MVE film. No picture comes before it.\n";
    assert_eq!((ran.code, &*ran.err), (Some(1), message));
}
