//! `mve play` to WAV files: every byte, compared with the second decoder.

mod common;

use common::second::{Second, Sounds};
use common::{files, mve, names, with_film};
use maker::film::{self, Chunk, Film, Opcode};
use maker::{demo, sound, Profile, Seeded, Size};
use std::collections::{BTreeMap, BTreeSet};
use std::path::Path;
use std::slice;

/// The WAV files of a folder.
fn wavs(folder: &Path) -> BTreeMap<String, Vec<u8>> {
    files(folder).into_iter().filter(|(name, _)| name.ends_with(".wav")).collect()
}

/// The files that all samples of the second decoder make.
fn expected(sounds: &[Sounds]) -> BTreeMap<String, Vec<u8>> {
    let name = |number: usize| match number {
        0 => "out.wav".to_string(),
        _ => format!("out.{}.wav", number + 1),
    };
    let file = |(number, sound): (usize, &Sounds)| (name(number), sound.wav(&sound.samples));
    sounds.iter().enumerate().map(file).collect()
}

/// Seeded films in every format; where it changes, another file follows.
#[test]
fn seeded() {
    let rng = &mut Seeded::new(40);
    let (mut formats, mut most, mut odd) = (BTreeSet::new(), 0, 0);
    for number in 0..60 {
        let stream = number % 16;
        let film = sound::with_frames(rng, stream, 3).bytes();
        let second = Second::of(&film, stream);
        if second.sounds.is_empty() {
            continue;
        }
        let folder = with_film("seeded", &film);
        let stream = stream.to_string();
        mve(&folder, &["play", "film.mve", "--sound", "out.wav", "--stream", &stream])
            .assert_silent();
        assert!(wavs(&folder) == expected(&second.sounds), "film {number}: {:?}", second.formats);
        formats.extend(second.formats.iter().map(|format| (format.1, format.2, format.3)));
        most = most.max(second.sounds.len());
        odd += second.sounds.iter().filter(|sound| sound.samples.len() % 2 == 1).count();
    }
    assert_eq!(formats.len(), 6);
    assert!(most > 2 && odd > 2, "{most} files at most, {odd} of odd length");
}

/// Pictures and sound by one command; stopped steps change nothing.
#[test]
fn with_pictures() {
    let film = demo::film().bytes();
    let folder = with_film("with_pictures", &film);
    mve(&folder, &["play", "film.mve", "-o", "out.gif", "--sound", "out.wav"]).assert_silent();
    assert_eq!(names(&folder), ["film.mve", "out.gif", "out.wav"]);
    let samples: Vec<u8> = (0..demo::FRAMES).flat_map(demo::samples).collect();
    let sound = Sounds { rate: 22_050, stereo: false, wide: true, samples };
    let whole = wavs(&folder);
    assert!(whole == expected(&[sound]));
    let stopped = ["play", "film.mve", "-o", "-", "--sound", "out.wav", "--force", "--stops", "65"];
    assert_eq!(mve(&folder, &stopped).code, Some(0));
    assert!(wavs(&folder) == whole);
}

/// The sound of chosen pictures. By hand: a picture of the demonstration stays for 100,000 us, which are
/// 2,205 samples of 2 bytes.
#[test]
fn cut() {
    let film = demo::beginning(9).bytes();
    let all = Second::of(&film, 0).sounds.remove(0);
    assert_eq!(all.samples.len(), 9 * 4410);
    let cases: [(&[&str], std::ops::Range<usize>); 4] = [
        (&["--from", "3"], 3..9),
        (&["--pictures", "2"], 0..2),
        (&["--from", "3", "--pictures", "4"], 3..7),
        (&["--from", "8", "--pictures", "4"], 8..9),
    ];
    for (options, range) in cases {
        for more in [&["--sound", "out.wav"][..], &["--sound", "out.wav", "-o", "out.y4m"]] {
            let folder = with_film("cut", &film);
            let words = [&["play", "film.mve"], more, options].concat();
            mve(&folder, &words).assert_silent();
            let wanted = &all.samples[range.start * 4410..range.end * 4410];
            let found = wavs(&folder);
            assert!(found["out.wav"] == all.wav(wanted), "{words:?}");
        }
    }
}

/// A film of so many pictures of 100,000 us with these sounds in front: of a format, this many samples,
/// a byte each that counts on.
fn film_of(pictures: usize, formats: &[(u16, usize)]) -> Vec<u8> {
    film_parts(pictures, formats).bytes()
}

fn film_parts(pictures: usize, formats: &[(u16, usize)]) -> Film {
    let mut film = film::plain(&mut Seeded::new(41), Size::new(1, 1), Profile::Light, pictures);
    let mut opcodes = vec![Opcode::new(0x02, 0, vec![0xA0, 0x86, 1, 0, 1, 0])];
    for &(rate, count) in formats {
        let words = |words: [u16; 3]| words.map(u16::to_le_bytes).concat();
        opcodes.push(Opcode::new(0x03, 0, [words([0, 0, rate]), vec![0, 0]].concat()));
        let data = (0..count).map(|number| number as u8).collect();
        opcodes.push(Opcode::new(0x08, 0, [words([0, 1, count as u16]), data].concat()));
    }
    film.chunks.insert(1, Chunk { kind: 1, opcodes, ..Chunk::default() });
    film
}

fn bytes(range: std::ops::Range<usize>) -> Vec<u8> {
    range.map(|number| number as u8).collect()
}

/// Sounds of two rates in a row, 200,000 us each: 800 samples of 4,000 and 1,600 of 8,000 a second.
#[test]
fn cut_across_formats() {
    let film = film_of(6, &[(4000, 800), (8000, 1600)]);
    let sound = |rate| Sounds { rate, stereo: false, wide: false, samples: Vec::new() };
    let [first, second] = [sound(4000), sound(8000)];
    let both = |a: &[u8], b: &[u8]| vec![first.wav(a), second.wav(b)];
    let cases: [(&[&str], Vec<Vec<u8>>); 6] = [
        (&[], both(&bytes(0..800), &bytes(0..1600))),
        (&["--from", "1"], both(&bytes(400..800), &bytes(0..1600))),
        (&["--from", "1", "--pictures", "2"], both(&bytes(400..800), &bytes(0..800))),
        (&["--from", "2"], vec![second.wav(&bytes(0..1600))]),
        (&["--pictures", "2"], vec![first.wav(&bytes(0..800))]),
        (&["--from", "5"], vec![second.wav(&[])]), // the sound is over before
    ];
    for (options, expected) in cases {
        let folder = with_film("across", &film);
        mve(&folder, &[&["play", "film.mve", "--sound", "out.wav"], options].concat())
            .assert_silent();
        let names = ["out.wav", "out.2.wav"].map(String::from).into_iter();
        let expected: BTreeMap<_, _> = names.zip(expected).collect();
        assert!(wavs(&folder) == expected, "{options:?}: {:?}", wavs(&folder).keys());
    }
}

/// Sound may come behind its pictures: it is waited for.
#[test]
fn late() {
    let early = film_of(2, &[(4000, 1000)]);
    // Two pictures stay for 200,000 us, which are 800 samples.
    let sound = Sounds { rate: 4000, stereo: false, wide: false, samples: bytes(0..800) };
    let mut film = film_parts(2, &[(4000, 1000)]);
    let chunk = film.chunks.remove(1);
    let (timer, format) = (chunk.opcodes[..1].to_vec(), chunk.opcodes[1..].to_vec());
    film.chunks.insert(1, Chunk { opcodes: timer, ..chunk.clone() });
    film.chunks.insert(4, Chunk { opcodes: format, ..chunk });
    for film in [early, film.bytes()] {
        let folder = with_film("late", &film);
        let words = ["play", "film.mve", "-o", "out.gif", "--sound", "out.wav", "--pictures", "2"];
        mve(&folder, &words).assert_silent();
        assert!(wavs(&folder) == expected(slice::from_ref(&sound)));
    }
}

/// Sound that the film does not have.
#[test]
fn missing() {
    let silent = film::plain(&mut Seeded::new(42), Size::new(1, 1), Profile::Light, 2).bytes();
    let folder = with_film("silent", &silent);
    let play = ["play", "film.mve", "-o", "out.gif", "--sound", "out.wav"];
    let ran = mve(&folder, &play);
    let message = "mve: film.mve: the film has no sound: leave --sound out\n";
    assert_eq!((ran.code, &*ran.err), (Some(1), message));
    assert_eq!(names(&folder), ["film.mve"]);

    let folder = with_film("other_stream", &demo::beginning(2).bytes());
    // Stream 5 is silent, which is sound, too (opcode 09 is for all streams but 0).
    mve(&folder, &[&play[..], &["--stream", "5"]].concat()).assert_silent();
    let sound = Sounds { rate: 22_050, stereo: false, wide: true, samples: vec![0; 8820] };
    assert!(wavs(&folder) == expected(&[sound]));

    let film = film_of(1, &[(4000, 8)]);
    let folder = with_film("no_stream", &film);
    let ran = mve(&folder, &[&play[..], &["--stream", "5"]].concat());
    let message = "mve: film.mve: no sound in stream 5: give --stream one of 0\n";
    assert_eq!((ran.code, &*ran.err), (Some(1), message));
    assert_eq!(names(&folder), ["film.mve"]);
}

/// Sound that nobody asks for is passed over: its faults do not stop the pictures.
#[test]
fn passed_over() {
    let mut film = demo::beginning(2);
    film.chunks[1].opcodes.clear(); // no format
    let folder = with_film("passed_over", &film.bytes());
    mve(&folder, &["play", "film.mve", "-o", "out.gif"]).assert_silent();
    for more in [&["--stream", "0"][..], &["--sound", "out.wav"]] {
        let ran = mve(&folder, &[&["play", "film.mve", "-o", "two.gif"], more].concat());
        assert_eq!(ran.code, Some(1), "{more:?}");
        assert!(ran.err.starts_with("mve: film.mve: refusal 17 at byte "), "{}", ran.err);
        assert_eq!(names(&folder), ["film.mve", "out.gif"]);
    }
}
