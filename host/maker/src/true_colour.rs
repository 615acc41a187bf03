//! Films with true colour (02, W7): made as other films are, then given such a size and such packets; valid,
//! damaged and hostile.

use crate::film::{self, Film, Opcode};
use crate::film_damage;
use crate::packet::Packet;
use crate::seeded::Seeded;
use crate::size::Size;
use crate::strips::{self, Padded};
use crate::word_damage;
use crate::words::{self, WordDraft, WordProfile, SHORT};
use crate::{beginning, colours, sound};

/// Bytes of opcode 11's body in front of its packet.
const VIDEO_FRONT: usize = 14;

/// Gives the opcodes of a film true colour: its 05, and each 11 that has a map, with that map.
pub fn deepen<'a>(rng: &mut Seeded, opcodes: impl Iterator<Item = &'a mut Opcode>) {
    let mut opcodes: Vec<&mut Opcode> = opcodes.collect();
    let Some(size) = opcodes.iter_mut().find(|opcode| opcode.kind == 0x05) else { return };
    let size = deepen_size(rng, size);
    let mut map = None;
    for at in 0..opcodes.len() {
        match (opcodes[at].kind, map) {
            (0x0F, _) => map = Some(at),
            (0x11, Some(pending)) => {
                let packet = packet(rng, size);
                let front = opcodes[at].body[..VIDEO_FRONT].to_vec();
                opcodes[at].body = [front, packet.data].concat();
                opcodes[pending].body = packet.map;
                map = None;
            }
            _ => (),
        }
    }
}

/// Makes an 05 one of version 2 with a true-colour word; its size.
fn deepen_size(rng: &mut Seeded, opcode: &mut Opcode) -> Size {
    let far = rng.between(1, 0xFFFF);
    let word = rng.pick(&[1, 1, 0x0100, 0x8000, far]) as u16;
    opcode.body.truncate(4);
    opcode.body.extend([rng.number() as u16, word].map(u16::to_le_bytes).concat());
    opcode.version = 2;
    let number = |at: usize| usize::from(opcode.body[at]) + 256 * usize::from(opcode.body[at + 1]);
    Size::new(number(0), number(2))
}

/// A valid packet for a frame of a film, padded or not.
fn packet(rng: &mut Seeded, size: Size) -> Packet {
    let profile = if rng.one_in(8) { WordProfile::Mixed } else { WordProfile::any(rng) };
    WordDraft::make(rng, size, profile, SHORT).or_padded(rng).packet()
}

/// The film with true colour instead.
fn deep(rng: &mut Seeded, mut film: Film) -> Film {
    deepen(rng, film.chunks.iter_mut().flat_map(|chunk| chunk.opcodes.iter_mut()));
    film
}

/// A valid film with up to four frames.
pub fn valid(rng: &mut Seeded) -> Film {
    let film = film::valid(rng);
    deep(rng, film)
}

/// A valid film with so many frames.
pub fn with_frames(rng: &mut Seeded, frames: usize) -> Film {
    let film = film::with_frames(rng, frames);
    deep(rng, film)
}

/// A valid film with so many frames and sound for a stream.
pub fn with_sound(rng: &mut Seeded, stream: usize, frames: usize) -> Film {
    let film = sound::with_frames(rng, stream, frames);
    deep(rng, film)
}

/// A valid film with so many frames of few blocks, rich in palettes and maps.
pub fn with_colours(rng: &mut Seeded, frames: usize) -> Film {
    let film = colours::film(rng, frames);
    deep(rng, film)
}

/// A film without a fault whose 05 stands anywhere, or nowhere.
pub fn beginning(rng: &mut Seeded, stream: usize) -> Film {
    let film = beginning::film(rng, stream);
    deep(rng, film)
}

/// A film with much that the player passes over, and sound for several streams.
pub fn padded(rng: &mut Seeded) -> Padded {
    let mut film = strips::make(rng);
    let opcodes = film.chunks.iter_mut().flat_map(|(_, opcodes)| opcodes);
    deepen(rng, opcodes.map(|(_, opcode)| opcode));
    film
}

/// Such a film with one damage inside an opcode, as [`strips::damaged`] has them.
pub fn padded_damaged(rng: &mut Seeded) -> Padded {
    let film = padded(rng);
    strips::with_damage(rng, film)
}

/// A valid film of one frame with this packet, in the shape that other players look for.
pub fn of_packet(rng: &mut Seeded, size: Size, packet: Packet) -> Film {
    let mut film = film::of_packets(rng, size, vec![packet]);
    deepen_size(rng, &mut film.chunks[0].opcodes[0]);
    film
}

/// Kinds of damage.
#[derive(Clone, Copy, Debug, PartialEq, Eq)]
pub enum Damage {
    /// One that befalls any film; of those in packets the ones of films with true colour.
    Film(film_damage::Damage),
    /// A body of 11 of 14 or 15 bytes: 5.
    ShortVideo,
    /// Such bodies of every 11, and no map: 5 comes before 9.
    ShortVideoNoMap,
    /// A damaged packet.
    Packet(word_damage::Damage),
    /// A second 05, with true colour or without: 6.
    SecondSize,
}

impl Damage {
    /// Any of them.
    pub fn any(rng: &mut Seeded) -> Damage {
        match rng.below(10) {
            0..=3 => Damage::Film(rng.pick(&film_damage::Damage::ALL)),
            4 => rng.pick(&[Damage::ShortVideo, Damage::ShortVideoNoMap]),
            5 if rng.one_in(4) => Damage::SecondSize,
            5..=7 => Damage::Packet(rng.pick(&[
                word_damage::Damage::LeaveFirst,
                word_damage::Damage::LeaveSecond,
                word_damage::Damage::LeaveBoth,
                word_damage::Damage::CutSecond,
            ])),
            _ => Damage::Packet(rng.pick(&word_damage::Damage::ALL)),
        }
    }
}

/// A film with one damage of this kind.
pub fn damaged(rng: &mut Seeded, damage: Damage) -> Vec<u8> {
    use film_damage::Damage as Other;
    let frames = rng.between(1, 3);
    let mut film = with_frames(rng, frames);
    match damage {
        Damage::Film(Other::Packet) => {
            let kind = rng.pick(&word_damage::Damage::NUMBERED);
            return damaged(rng, Damage::Packet(kind));
        }
        Damage::Film(Other::LeaveOver) => {
            let kind =
                rng.pick(&[word_damage::Damage::LeaveFirst, word_damage::Damage::LeaveSecond]);
            return damaged(rng, Damage::Packet(kind));
        }
        Damage::Film(damage) => return film_damage::with_damage(rng, film, damage),
        Damage::ShortVideo => short_video(rng, &mut film),
        Damage::ShortVideoNoMap => {
            let opcodes = film.chunks.iter_mut().flat_map(|chunk| chunk.opcodes.iter_mut());
            for video in opcodes.filter(|opcode| opcode.kind == 0x11) {
                video.body.truncate(VIDEO_FRONT + usize::from(rng.one_in(2)));
            }
            film_damage::remove(&mut film, 0x0F);
        }
        Damage::Packet(kind) => {
            let profile = WordProfile::any(rng);
            let draft = WordDraft::make(rng, film.size, profile, SHORT).or_padded(rng);
            let packet = word_damage::damaged(rng, &draft, kind);
            let [map, video] = film::packet_opcodes(rng, packet);
            film_damage::replace_frame(rng, &mut film, map, video);
        }
        Damage::SecondSize => {
            let again = film::any_init_video(rng, film.size);
            let at = rng.below(film.chunks.len());
            film.chunks[at].opcodes.insert(0, again);
        }
    }
    film.bytes()
}

/// Cuts the body of an 11 to 14 or 15 bytes.
fn short_video(rng: &mut Seeded, film: &mut Film) {
    let length = rng.between(VIDEO_FRONT, VIDEO_FRONT + 1);
    film_damage::any_opcode(rng, film, |opcode| opcode.kind == 0x11).body.truncate(length);
}

/// A valid film with bytes changed blindly.
pub fn scratched(rng: &mut Seeded) -> Vec<u8> {
    let film = valid(rng).bytes();
    film_damage::scratch(rng, film)
}

/// A film with sound for a stream with bytes changed blindly.
pub fn scratched_sound(rng: &mut Seeded, stream: usize) -> Vec<u8> {
    let frames = rng.below(4);
    let film = with_sound(rng, stream, frames).bytes();
    film_damage::scratch(rng, film)
}

/// A film of a size and frames whose maps and packets are bytes without meaning.
pub fn hostile(rng: &mut Seeded) -> Vec<u8> {
    let frames = rng.between(1, 3);
    let mut film = with_frames(rng, frames);
    for opcode in film.chunks.iter_mut().flat_map(|chunk| chunk.opcodes.iter_mut()) {
        if opcode.kind == 0x11 {
            opcode.body.truncate(VIDEO_FRONT);
            opcode.body.extend(words::hostile(rng).data);
        }
    }
    film.bytes()
}
