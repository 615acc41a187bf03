//! Both players on films with sound: the WAV files that they leave have the second decoder's samples,
//! none lost and none twice, however often they are stopped; and they refuse what it refuses.

mod common;

use common::{
    assert_files, assert_played, assert_refused, fresh, last_message, players, run, Options,
};
use maker::film::{Chunk, Film, Opcode};
use maker::sound::{self, Track};
use maker::sound_damage::{self, Damage};
use maker::{demo, Seeded, Size};
use reference::pictures::{self, Played};
use std::collections::BTreeMap;
use std::fs::{self, OpenOptions};
use std::io::Write;
use std::path::{Path, PathBuf};
use std::process::Command;
use std::thread;

const ALLOWANCES: [usize; 3] = [65, 1000, 312_000];
/// Never, and as often as can be, and less often.
const EVERY: [Option<usize>; 4] = [None, Some(2), Some(3), Some(7)];
/// The refusals of sound that a film alone can meet: the players lend room enough.
const NUMBERS: [u8; 4] = [4, 5, 17, 18];

/// A film of so many opcodes of sound for a stream, each alone in its chunk.
fn many_packets(rng: &mut Seeded, stream: usize, opcodes: usize) -> Film {
    let mut track = Track::new(stream);
    let chunk = |opcode: Opcode| Chunk { opcodes: vec![opcode], ..Chunk::default() };
    let chunks = (0..opcodes).map(|_| chunk(track.next(rng))).collect();
    Film { size: Size::new(1, 1), stream, chunks, tail: Vec::new() }
}

/// What was heard.
#[derive(Debug, Default)]
struct Heard {
    recordings: usize,
    bytes: usize,
    /// Recordings of an odd number of bytes.
    odd: usize,
    /// Films of several recordings.
    several: usize,
}

impl Heard {
    fn add(&mut self, played: &Played) {
        let lengths = played.recordings.iter().map(|recording| recording.samples.len());
        self.recordings += played.recordings.len();
        self.bytes += lengths.clone().sum::<usize>();
        self.odd += lengths.filter(|length| length % 2 == 1).count();
        self.several += usize::from(played.recordings.len() > 1);
    }
}

/// Between opcodes of sound and of pictures.
#[test]
fn good_films() {
    let (mut heard, mut stopped, mut sent) = (Heard::default(), 0, 0);
    for seed in 0..40 {
        let rng = &mut Seeded::new(seed);
        let stream = rng.below(16);
        let film = sound::with_frames(rng, stream, seed as usize % 8).bytes();
        let played = pictures::play(&film, stream);
        println!("seed {seed}");
        assert_eq!(played.refusal, None);
        for every in EVERY {
            let options = Options { allowance: rng.pick(&ALLOWANCES), stream, every };
            stopped += assert_played("good_films_with_sound", &film, &played, &options);
        }
        heard.add(&played);
        sent += played.pictures.len();
    }
    println!("{heard:?}, {sent} pictures, {stopped} stops");
    assert!(heard.recordings >= 40 && heard.several >= 5 && sent >= 80 && stopped >= 1000);
}

/// Thousands of stops where samples are written and the state is not saved, or a file is begun.
#[test]
fn many_stops() {
    let (mut heard, mut stopped) = (Heard::default(), 0);
    for seed in 0..12 {
        let rng = &mut Seeded::new(seed);
        let stream = rng.below(16);
        let film = many_packets(rng, stream, 300).bytes();
        let played = pictures::play(&film, stream);
        println!("seed {seed}");
        assert_eq!(played.refusal, None);
        for every in EVERY {
            let options = Options { allowance: 65, stream, every };
            stopped += assert_played("many_stops", &film, &played, &options);
        }
        heard.add(&played);
    }
    println!("{heard:?}, {stopped} stops");
    assert!(heard.recordings >= 100 && heard.bytes >= 1_000_000 && heard.odd >= 5);
    assert!(stopped >= 2000, "{stopped}");
}

/// A film of 8-bit sound for stream 0: a format, a packet of three samples, and an opcode of this type
/// and body.
fn film_with_last(kind: u8, body: &[u8]) -> Vec<u8> {
    let opcodes = vec![
        Opcode::new(0x03, 0, vec![0, 0, 0, 0, 0x22, 0x56, 0, 0]),
        Opcode::new(0x08, 0, vec![0, 0, 1, 0, 3, 0, 10, 20, 30]),
        Opcode::new(kind, 0, body.to_vec()),
    ];
    let chunks = vec![Chunk { opcodes, ..Chunk::default() }];
    Film { size: Size::new(1, 1), stream: 0, chunks, tail: Vec::new() }.bytes()
}

fn make_pipe(path: &Path) {
    let made = Command::new("mkfifo").arg(path).status().expect("mkfifo runs");
    assert!(made.success(), "{path:?}");
}

/// Lends a player a film in a pipe of this name, another one each time it opens it. The next pipe is
/// there before a film has ended.
fn lend_films(path: PathBuf, films: Vec<Vec<u8>>) {
    make_pipe(&path);
    thread::spawn(move || {
        for film in films {
            let mut pipe = OpenOptions::new().write(true).open(&path).expect("a pipe");
            let next = path.with_extension("next");
            make_pipe(&next);
            fs::rename(next, &path).expect("the next pipe takes the name");
            pipe.write_all(&film).expect("the player reads the film");
        }
    });
}

/// A step made again writes the same at the same place, whether the files are cut or not. So the run
/// after the stop finds another film here: one that passes over the opcode at which the first run was
/// stopped. What that opcode gave must be gone.
#[test]
fn cut_after_a_stop() {
    let options = Options { allowance: 65, stream: 0, every: Some(3) };
    let samples = [0, 0, 1, 0, 5, 0, 40, 50, 60, 70, 80];
    let format = [0, 0, 0, 0, 0x11, 0x2B, 0, 0];
    for (kind, body) in [(0x08, &samples[..]), (0x03, &format)] {
        let (first, second) = (film_with_last(kind, body), film_with_last(0x02, body));
        let (played, length) = (pictures::play(&second, 0), second.len());
        assert_eq!(played.recordings.len(), 1);
        assert_eq!(played.recordings[0].samples, [10, 20, 30]);
        let whole = pictures::play(&first, 0);
        assert_eq!(assert_played("cut_after_a_stop", &first, &whole, &options), 1);
        for (name, program) in players() {
            let case = format!("{kind:02X}, {name}");
            let folder = fresh("cut_after_a_stop");
            // The film is read before the first run, by the first run and by the second.
            let films = vec![first.clone(), first.clone(), second.clone()];
            lend_films(folder.join("film.mve"), films);
            let left = run(&program, &folder, &["film.mve", "pictures", "65", "0", "3"]);
            let ended = format!(
                "film.mve: ended at byte {length}, pictures: 0, sound files: 1, stops: 1\n"
            );
            assert_eq!((left.code, last_message(&left)), (Some(0), &*ended), "{case}");
            assert_files(&left, &played, &case);
        }
    }
}

/// The demonstration's film: one file, with the samples that it was made of.
#[test]
fn demonstration() {
    let film = demo::film().bytes();
    let played = pictures::play(&film, demo::STREAM);
    let samples: Vec<u8> = (0..demo::FRAMES).flat_map(demo::samples).collect();
    assert_eq!(played.recordings.len(), 1);
    assert!(played.recordings[0].samples == samples);
    assert_eq!(usize::from(played.recordings[0].rate), demo::RATE);
    for every in EVERY {
        let options = Options { allowance: 200, stream: demo::STREAM, every };
        assert_played("demonstration", &film, &played, &options);
    }
}

/// A film whose sound is refused: what was heard before stays, in files whose lengths are right.
#[test]
fn refused_films() {
    let (mut numbers, mut heard) = (BTreeMap::new(), Heard::default());
    for seed in 0..10 {
        let rng = &mut Seeded::new(seed);
        for damage in Damage::ALL {
            let stream = rng.below(16);
            let film = sound_damage::damaged(rng, stream, damage).bytes();
            println!("seed {seed}, {damage:?}");
            let played = pictures::play(&film, stream);
            let (allowance, every) = (rng.pick(&ALLOWANCES), rng.pick(&EVERY));
            let options = Options { allowance, stream, every };
            match played.refusal {
                Some(refusal) => {
                    assert_refused("refused_films_with_sound", &film, &played, &options);
                    *numbers.entry(refusal.number).or_insert(0) += 1;
                    heard.add(&played);
                }
                None => _ = assert_played("refused_films_with_sound", &film, &played, &options),
            }
        }
    }
    println!("{numbers:?}, {heard:?}");
    assert!(NUMBERS.iter().all(|number| numbers.contains_key(number)), "{numbers:?}");
    assert!(heard.bytes >= 1000 && heard.recordings >= 20, "{heard:?}");
}
