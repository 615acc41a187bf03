//! Films whose opcode 05 stands anywhere, or nowhere: the steps up to it are what one opening call
//! takes together (02, W8).

use crate::film::{self, Film, Opcode};
use crate::film_damage;
use crate::seeded::Seeded;
use crate::size::Size;
use crate::sound::{self, Track};

/// A film without a fault, but that it may have no 05 and that its size may come behind many opcodes:
/// palettes, maps, sends, opcodes that are passed over, and sound for the stream, where one is chosen.
/// Some chunks are empty. Behind the 05 stands anything that may stand in front of it.
pub fn film(rng: &mut Seeded, stream: usize) -> Film {
    let size = Size::small(rng);
    let mut track = (stream < 16).then(|| Track::new(stream));
    let mut opcodes = Vec::new();
    for _ in 0..rng.below(9) {
        some(rng, track.as_mut(), &mut opcodes);
    }
    if !rng.one_in(6) {
        let at = rng.below(opcodes.len() + 1);
        opcodes.insert(at, film::any_init_video(rng, size));
    }
    let mut film = film::of_opcodes(rng, size, stream, opcodes);
    if stream < 16 {
        sound::silence_end(&mut film);
    }
    film
}

/// Opcodes that need no size.
fn some(rng: &mut Seeded, track: Option<&mut Track>, opcodes: &mut Vec<Opcode>) {
    match (rng.below(4), track) {
        (0, _) => {
            let length = rng.below(9);
            opcodes.push(Opcode::new(0x0F, 0, rng.bytes(length)));
        }
        (1 | 2, Some(track)) => opcodes.push(track.next(rng)),
        (3, _) if rng.one_in(4) => opcodes.push(film::send(rng)),
        (_, track) => {
            let first = opcodes.len();
            film::others(rng, opcodes);
            // Sound of any bytes would be acted on.
            if track.is_some() {
                sound::silence(&mut opcodes[first..]);
            }
        }
    }
}

/// Such a film with a fault: an opcode that is refused put in anywhere, bytes changed blindly in front
/// of the 05 or behind it, or the film cut anywhere.
pub fn damaged(rng: &mut Seeded, stream: usize) -> Vec<u8> {
    let mut film = film(rng, stream);
    match rng.below(4) {
        0 | 1 => {
            let opcodes = wrong(rng);
            put(rng, &mut film, opcodes);
            film.bytes()
        }
        2 => {
            let mut bytes = film.bytes();
            bytes.truncate(rng.below(bytes.len() + 1));
            bytes
        }
        _ if film.bytes().len() == 26 => film.bytes(),
        _ => film_damage::scratch(rng, film.bytes()),
    }
}

/// Opcodes of which the last is refused, where there is no size, or, of sound, for any stream: 9, 6, 7,
/// 4, 5, 17 for a format and 18 for an odd count in stereo. 08 in front of any 03 is 17, too.
fn wrong(rng: &mut Seeded) -> Vec<Opcode> {
    let words =
        |words: &[u16]| words.iter().flat_map(|word| word.to_le_bytes()).collect::<Vec<u8>>();
    match rng.below(8) {
        0 => vec![Opcode::new(0x11, 0, rng.bytes(16))],
        1 => vec![film::any_init_video(rng, Size::new(81, 61))],
        2 => vec![Opcode::new(0x0C, 0, [words(&[9, 1]), vec![0, 63, 64]].concat())],
        3 => vec![Opcode::new(rng.pick(&[0x06, 0x0E, 0x10, 0x16]), 0, Vec::new())],
        4 => vec![Opcode::new(rng.pick(&[0x07, 0x0B, 0x0D]), 0, rng.bytes(3))],
        5 => vec![Opcode::new(0x03, 1, words(&[0, 0b100, 0, 0, 0]))],
        6 => vec![Opcode::new(0x08, 0, words(&[0, 0xFFFF, 0]))],
        _ => {
            let odd = Opcode::new(0x09, 0, words(&[0, 0xFFFF, 3]));
            vec![Opcode::new(0x03, 0, words(&[0, 1, 0, 0])), odd]
        }
    }
}

/// Puts opcodes into a chunk, in front of the one that ends it.
fn put(rng: &mut Seeded, film: &mut Film, opcodes: Vec<Opcode>) {
    let chunk = rng.below(film.chunks.len());
    let chunk = &mut film.chunks[chunk].opcodes;
    let ends = chunk.last().is_some_and(|last| last.kind < 2);
    let at = rng.below(chunk.len() + 1 - usize::from(ends));
    chunk.splice(at..at, opcodes);
}
