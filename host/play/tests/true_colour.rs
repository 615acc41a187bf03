//! Both players on films with true colour: one worked out by hand, with its pictures, whatever the allowance, and
//! the rows that they tell; a packet that is refused; and made films, with the second decoder's pictures and sound.

mod common;

use common::{assert_played, assert_refused, last_message, play, players, Options};
use maker::true_colour::{self, Damage};
use maker::{word_damage, Seeded};
use reference::pictures;
use std::collections::BTreeSet;

fn word(number: usize) -> [u8; 2] {
    (number as u16).to_le_bytes()
}

fn opcode(kind: u8, version: u8, body: &[u8]) -> Vec<u8> {
    [&word(body.len())[..], &[kind, version], body].concat()
}

/// Opcodes 0x0F and 0x11 with a packet of these two parts, and 0x07.
fn frame(map: &[u8], first: &[u8], second: &[u8]) -> Vec<u8> {
    let body = [&[0; 14], &word(2 + first.len())[..], first, second].concat();
    [opcode(0x0F, 0, map), opcode(0x11, 0, &body), opcode(0x07, 0, &[0; 4])].concat()
}

/// A film of two blocks in a row.
fn film(frames: &[Vec<u8>]) -> Vec<u8> {
    let size = opcode(0x05, 2, &[word(2), word(1), word(1), word(0x101)].concat());
    let body = [size, frames.concat()].concat();
    let header = b"Interplay MVE File\x1A\0\x1A\0\0\x01\x33\x11";
    [&header[..], &word(body.len()), &word(3), &body].concat()
}

/// A picture of two blocks of one colour each.
fn ppm(number: usize, left: [u8; 3], right: [u8; 3]) -> Vec<u8> {
    let heading = format!("P6\n# rows 0 to 0\n# at {} us\n16 8\n255\n", 66_728 * number);
    let row = [left.repeat(8), right.repeat(8)].concat();
    [heading.into_bytes(), row.repeat(8)].concat()
}

/// Red is the high one of the three: 31 of it, then 16 of green, then 1 of blue, with the highest bit set.
const COLOURS: [[u8; 2]; 3] = [[0x00, 0x7C], [0x00, 0x02], [0x01, 0x80]];
const SHOWN: [[u8; 3]; 3] = [[255, 0, 0], [0, 132, 0], [0, 0, 8]];

#[test]
fn pictures() {
    let [red, green, blue] = COLOURS;
    let film = film(&[
        frame(&[0xEE], &[red, green].concat(), &[]),
        frame(&[0xE0], &blue, &[]), // the left block of the last picture
        frame(&[0xF1], &[], &[7]), // both blocks of the picture before the last, and a byte that pads
    ]);
    let expected =
        [ppm(0, SHOWN[0], SHOWN[1]), ppm(1, SHOWN[0], SHOWN[2]), ppm(2, SHOWN[0], SHOWN[1])];
    for allowance in [1, 65, 100, 312_000] {
        for (name, program) in players() {
            let options = Options { allowance, stream: 16, every: None };
            let left = play(&program, "true_colour", &film, &options);
            assert_eq!(left.code, Some(0), "{name}, {allowance}: {}", left.messages);
            assert!(left.files.values().eq(&expected), "{name}, {allowance}");
        }
    }
}

/// An offset behind the packet's end: refused by 20, behind a picture that stays.
#[test]
fn refused() {
    let good = frame(&[0xEE], &[COLOURS[0], COLOURS[1]].concat(), &[]);
    let mut film = film(&[good.clone(), good]);
    let second = film.len() - 8 - 6; // the offset of the second packet
    film[second] = 7;
    for (name, program) in players() {
        let options = Options { allowance: 312_000, stream: 16, every: None };
        let left = play(&program, "refused_true_colour", &film, &options);
        assert_eq!((left.code, left.files.len()), (Some(1), 1), "{name}: {}", left.messages);
        let message =
            "film.mve: refusal 20: the packet does not say where its second part begins, or it \
                       begins outside the packet, at byte 84, pictures: 1, sound files: 0\n";
        assert_eq!(last_message(&left), message, "{name}");
    }
}

/// Made films with sound, over stops in drawings and at opcodes of sound.
#[test]
fn made_films() {
    let (mut sent, mut stopped) = (0, 0);
    for seed in 0..24 {
        let rng = &mut Seeded::new(seed);
        let film = true_colour::with_sound(rng, 3, seed as usize % 6).bytes();
        let played = pictures::play(&film, 3);
        assert_eq!(played.refusal, None, "seed {seed}");
        for allowance in [65, 1000, 312_000] {
            let every = rng.pick(&[None, Some(2), Some(3)]);
            let options = Options { allowance, stream: 3, every };
            stopped += assert_played("made_true_colour", &film, &played, &options);
        }
        sent += played.pictures.len();
    }
    println!("{sent} pictures, {stopped} stops");
    assert!(sent >= 30 && stopped >= 1000);
}

/// Damaged packets: what came before stays, and both players say the same.
#[test]
fn damaged_films() {
    let mut numbers = BTreeSet::new();
    for (seed, damage) in (0..).zip(word_damage::Damage::NUMBERED.repeat(2)) {
        let film = true_colour::damaged(&mut Seeded::new(seed), Damage::Packet(damage));
        let played = pictures::play(&film, 16);
        if let Some(refusal) = played.refusal {
            let options = Options { allowance: 312_000, stream: 16, every: None };
            assert_refused("damaged_true_colour", &film, &played, &options);
            numbers.insert(refusal.number);
        }
    }
    println!("{numbers:?}");
    assert!(numbers.is_superset(&[10, 13, 14, 15, 20].into()), "{numbers:?}");
}
