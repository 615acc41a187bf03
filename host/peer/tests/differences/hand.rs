//! Films written by hand, opcode by opcode, in the shape that libavformat takes, and the accounts of
//! both players.

use maker::film::{init_video, Chunk, Film, Opcode};
use maker::Size;
use peer::film::{AUDIO, END, INIT_AUDIO, INIT_VIDEO, STREAM, VIDEO};
use peer::played::{Picture, Played};
use peer::{libav, ours};

/// Two blocks beside each other: the size of most films here.
pub const PAIR: Size = Size { columns: 2, rows: 1 };
/// Two rows of two blocks.
pub const SQUARE: Size = Size { columns: 2, rows: 2 };

/// Flags of 03: 8-bit mono, 16-bit mono, compressed mono in version 1.
pub const BYTES: u16 = 0b000;
pub const WORDS: u16 = 0b010;
pub const COMPRESSED: u16 = 0b110;

/// An opcode of version 0.
pub fn opcode(kind: u8, body: &[u8]) -> Opcode {
    Opcode::new(kind, 0, body.to_vec())
}

/// A chunk.
pub fn chunk(kind: u16, opcodes: &[Opcode]) -> Chunk {
    Chunk { kind, opcodes: opcodes.to_vec(), ..Chunk::default() }
}

/// Opcodes 0F and 11.
pub fn packet(map: &[u8], data: &[u8]) -> [Opcode; 2] {
    [opcode(0x0F, map), opcode(0x11, &[&[0; 14], data].concat())]
}

/// Opcode 07.
pub fn send() -> Opcode {
    opcode(0x07, &[0; 4])
}

/// A chunk with a picture that is sent.
pub fn picture(map: &[u8], data: &[u8]) -> Chunk {
    chunk(VIDEO, &[&packet(map, data)[..], &[send()]].concat())
}

/// A picture of two solid blocks.
pub fn pair(left: u8, right: u8) -> Chunk {
    picture(&[0xEE], &[left, right])
}

/// A picture of four solid blocks.
pub fn square(data: [u8; 4]) -> Chunk {
    picture(&[0xEE; 2], &data)
}

/// Opcode 0C from this entry on.
pub fn palette(start: u16, components: &[u8]) -> Opcode {
    let count = components.len() as u16 / 3;
    opcode(0x0C, &[&[start, count].map(u16::to_le_bytes).concat(), components].concat())
}

/// Opcode 03.
pub fn format(version: u8, flags: u16) -> Opcode {
    let words = [0, flags, 22_050, 0].map(u16::to_le_bytes).concat();
    let behind = vec![0; 2 * usize::from(version)];
    Opcode::new(0x03, version, [words, behind].concat())
}

/// Opcode 08 of stream 0.
pub fn sound(count: u16, data: &[u8]) -> Opcode {
    masked(0x08, 1 << STREAM, count, data)
}

/// Opcode 08 or 09.
pub fn masked(kind: u8, mask: u16, count: u16, data: &[u8]) -> Opcode {
    opcode(kind, &[&[0, mask, count].map(u16::to_le_bytes).concat(), data].concat())
}

/// The first chunk of a film.
pub fn first(size: Size) -> Chunk {
    chunk(INIT_VIDEO, &[init_video(size)])
}

/// The last one.
pub fn last() -> Chunk {
    chunk(END, &[opcode(0x00, &[])])
}

/// A film of these chunks and no others.
pub fn bare(chunks: &[Chunk]) -> Vec<u8> {
    Film { size: PAIR, stream: STREAM, chunks: chunks.to_vec(), tail: Vec::new() }.bytes()
}

/// A film of this size with these chunks between the first and the last.
pub fn film(size: Size, chunks: &[Chunk]) -> Vec<u8> {
    bare(&[&[first(size)], chunks, &[last()]].concat())
}

/// A film whose sound begins by this 03, with a picture and then these chunks of sound.
pub fn heard(start: Opcode, chunks: &[&[Opcode]]) -> Vec<u8> {
    let sounds = chunks.iter().map(|opcodes| chunk(AUDIO, opcodes));
    let chunks = [chunk(INIT_AUDIO, &[start]), pair(1, 2)].into_iter().chain(sounds);
    film(PAIR, &chunks.collect::<Vec<_>>())
}

/// The accounts of both players.
pub struct Accounts {
    pub ours: ours::Account,
    pub libav: libav::Account,
}

/// Plays a film that libavformat opens.
pub fn play(film: &[u8]) -> Accounts {
    let libav = libav::play(film).expect("libavformat opens the film");
    Accounts { ours: ours::play(film, STREAM), libav }
}

impl Accounts {
    /// Asserts that both came to the film's end without a fault.
    #[track_caller]
    pub fn ended(self) -> Accounts {
        assert_eq!(self.ours.refusal, None);
        self.libav_ended()
    }

    /// Asserts that the library refuses the film and libav plays it to its end without a fault.
    #[track_caller]
    pub fn refused(self, number: u8, block: usize) -> Accounts {
        let found = self.ours.refusal.map(|refusal| (refusal.number(), refusal.block));
        assert_eq!(found, Some((number, block)));
        self.libav_ended()
    }

    #[track_caller]
    fn libav_ended(self) -> Accounts {
        assert_eq!((&self.libav.faults[..], self.libav.error), (&[][..], None));
        self
    }

    /// The blocks of each picture of the library, then of libav; all of them are solid.
    #[track_caller]
    pub fn blocks(&self) -> [Vec<Vec<u8>>; 2] {
        let blocks = |played: &Played| played.pictures.iter().map(solid).collect();
        [blocks(&self.ours.played), blocks(&self.libav.played)]
    }

    /// The samples of the library, then of libav, of one format each.
    #[track_caller]
    pub fn samples(self) -> [Vec<u8>; 2] {
        [self.ours.played, self.libav.played].map(|played| match <[_; 1]>::try_from(played.sound) {
            Ok([heard]) => heard.samples,
            Err(other) => panic!("{} formats of sound", other.len()),
        })
    }
}

/// The colours of solid blocks.
#[track_caller]
fn solid(picture: &Picture) -> Vec<u8> {
    let size = Size::new(picture.width / 8, picture.height / 8);
    let blocks = (0..size.blocks()).map(|number| {
        let pixels = block(picture, number);
        assert_eq!(pixels, [pixels[0]; 64], "block {number}");
        pixels[0]
    });
    blocks.collect()
}

/// The pixels of a block, row by row.
pub fn block(picture: &Picture, number: usize) -> Vec<u8> {
    let (x, y) = Size::new(picture.width / 8, picture.height / 8).corner(number);
    (0..64).map(|i| picture.pixels[(y + i / 8) * picture.width + x + i % 8]).collect()
}

/// Samples of 16 bits.
pub fn words(bytes: Vec<u8>) -> Vec<i16> {
    bytes.chunks_exact(2).map(|pair| i16::from_le_bytes([pair[0], pair[1]])).collect()
}
