//! Films: header, chunks, opcodes (01, "Film, chunks, opcodes").

use crate::packet::{Draft, Packet, Profile};
use crate::seeded::Seeded;
use crate::size::Size;
use reference::sound::NO_STREAM;

/// The types that are passed over unread, in any version and length, where no stream of sound is
/// chosen.
pub const PASSED_OVER: [u8; 10] = [0x02, 0x03, 0x04, 0x08, 0x09, 0x0A, 0x12, 0x13, 0x14, 0x15];
/// The types that are acted on whatever the stream.
pub const ACTED_ON: [u8; 9] = [0x00, 0x01, 0x05, 0x07, 0x0B, 0x0C, 0x0D, 0x0F, 0x11];
/// The types that are acted on where a stream is chosen, else passed over.
pub const SOUND: [u8; 3] = [0x03, 0x08, 0x09];

/// A chunk longer than this is closed. No made opcode has 32,000 bytes, so none passes a word.
const FULL_CHUNK: usize = 32_000;

/// The film header.
pub const HEADER: &[u8; 26] = b"Interplay MVE File\x1A\0\x1A\0\0\x01\x33\x11";

/// An opcode.
#[derive(Clone, Debug)]
pub struct Opcode {
    /// The type byte.
    pub kind: u8,
    /// The version byte.
    pub version: u8,
    /// The body.
    pub body: Vec<u8>,
    /// The length word where it is not that of the body.
    pub stated_length: Option<u16>,
}

/// A chunk.
#[derive(Clone, Debug, Default)]
pub struct Chunk {
    /// The type word, which nobody reads.
    pub kind: u16,
    /// The opcodes that fill it.
    pub opcodes: Vec<Opcode>,
    /// Bytes of the chunk behind its opcodes; none in a valid film.
    pub loose: Vec<u8>,
    /// The length word where it is not that of the body.
    pub stated_length: Option<u16>,
}

/// A film as its maker keeps it.
#[derive(Clone, Debug)]
pub struct Film {
    /// The frame size that its opcode 05 gives.
    pub size: Size,
    /// The stream of sound that it is made for. Where that is none, opcodes 03, 08 and 09 are any
    /// bytes.
    pub stream: usize,
    /// The chunks.
    pub chunks: Vec<Chunk>,
    /// Bytes behind the last chunk. Valid only where that chunk ends the film by opcode 00.
    pub tail: Vec<u8>,
}

impl Opcode {
    /// An opcode whose length word is that of its body.
    pub fn new(kind: u8, version: u8, body: Vec<u8>) -> Opcode {
        Opcode { kind, version, body, stated_length: None }
    }

    fn bytes(&self) -> Vec<u8> {
        let length = stated(self.stated_length, self.body.len());
        [&length[..], &[self.kind, self.version], &self.body].concat()
    }
}

impl Chunk {
    /// Bytes of the opcodes with their heads.
    pub fn length(&self) -> usize {
        self.opcodes.iter().map(|opcode| 4 + opcode.body.len()).sum()
    }

    /// The bytes, with its head.
    pub fn bytes(&self) -> Vec<u8> {
        let mut body: Vec<u8> = self.opcodes.iter().flat_map(Opcode::bytes).collect();
        body.extend(&self.loose);
        let length = stated(self.stated_length, body.len());
        [&length[..], &self.kind.to_le_bytes(), &body].concat()
    }
}

impl Film {
    /// The bytes.
    pub fn bytes(&self) -> Vec<u8> {
        let chunks = self.chunks.iter().flat_map(Chunk::bytes);
        HEADER.iter().copied().chain(chunks).chain(self.tail.iter().copied()).collect()
    }

    /// Whether its opcode 05 says that it has true colour.
    pub fn is_true_colour(&self) -> bool {
        let opcodes = || self.chunks.iter().flat_map(|chunk| &chunk.opcodes);
        let size = opcodes().find(|opcode| opcode.kind == 0x05);
        size.is_some_and(|size| {
            size.version == 2 && size.body.get(6..8).is_some_and(|w| w != [0, 0])
        })
    }
}

/// The length word of a head.
fn stated(length: Option<u16>, real: usize) -> [u8; 2] {
    let real = || u16::try_from(real).expect("made chunks are shorter than 65,536 bytes");
    length.unwrap_or_else(real).to_le_bytes()
}

/// A valid film with up to four frames.
pub fn valid(rng: &mut Seeded) -> Film {
    let frames = rng.below(5);
    with_frames(rng, frames)
}

/// A valid film with so many frames, usually small ones, for no stream of sound.
pub fn with_frames(rng: &mut Seeded, frames: usize) -> Film {
    let (size, opcodes) = pictures(rng, frames);
    of_opcodes(rng, size, NO_STREAM, opcodes)
}

/// A valid film of so many frames of this size, each of them sent, in the shape that other players
/// look for: the size in a chunk of type 2, each frame in one of type 3, the end in one of type 5.
pub fn plain(rng: &mut Seeded, size: Size, profile: Profile, frames: usize) -> Film {
    let packets = (0..frames).map(|_| Draft::make(rng, size, profile).packet()).collect();
    of_packets(rng, size, packets)
}

/// A film of that shape whose frames have these packets.
pub fn of_packets(rng: &mut Seeded, size: Size, packets: Vec<Packet>) -> Film {
    let chunk = |kind, opcodes| Chunk { kind, opcodes, ..Chunk::default() };
    let mut chunks = vec![chunk(2, vec![init_video(size)])];
    for packet in packets {
        let [map, video] = packet_opcodes(rng, packet);
        chunks.push(chunk(3, vec![map, video, send(rng)]));
    }
    chunks.push(chunk(5, vec![Opcode::new(0x00, 0, Vec::new())]));
    Film { size, stream: NO_STREAM, chunks, tail: Vec::new() }
}

/// The opcodes of so many frames, and their size. There may be no opcode 05 only where there is no
/// frame.
pub(crate) fn pictures(rng: &mut Seeded, frames: usize) -> (Size, Vec<Opcode>) {
    let large = rng.one_in(64);
    let size = if large { Size::any(rng) } else { Size::small(rng) };
    let mut opcodes = Vec::new();
    others(rng, &mut opcodes);
    if frames > 0 || !rng.one_in(4) {
        opcodes.push(any_init_video(rng, size));
    }
    for _ in 0..frames {
        let profile = if large { Profile::Light } else { rng.pick(&Profile::MANY) };
        frame(rng, &mut opcodes, size, profile);
    }
    (size, opcodes)
}

/// A film of these opcodes, spread over chunks, with an end.
pub(crate) fn of_opcodes(
    rng: &mut Seeded,
    size: Size,
    stream: usize,
    opcodes: Vec<Opcode>,
) -> Film {
    let mut chunks = in_chunks(rng, opcodes);
    let tail = end(rng, &mut chunks);
    Film { size, stream, chunks, tail }
}

/// The opcodes 0F and 11 of a packet.
pub fn packet_opcodes(rng: &mut Seeded, packet: Packet) -> [Opcode; 2] {
    let body = [rng.bytes(14), packet.data].concat();
    [Opcode::new(0x0F, 0, packet.map), Opcode::new(0x11, 0, body)]
}

/// One frame: map, video data, padded or not, usually a send, and other opcodes between them. Now and
/// then a map is set that another one replaces, or a frame is drawn over before it is sent.
fn frame(rng: &mut Seeded, opcodes: &mut Vec<Opcode>, size: Size, profile: Profile) {
    if rng.one_in(8) {
        let length = rng.below(9);
        opcodes.push(Opcode::new(0x0F, 0, rng.bytes(length)));
    }
    let packet = Draft::make(rng, size, profile).or_strip(rng).or_padded(rng).packet();
    let [map, video] = packet_opcodes(rng, packet);
    opcodes.push(map);
    others(rng, opcodes);
    opcodes.push(video);
    others(rng, opcodes);
    if !rng.one_in(6) {
        opcodes.push(send(rng));
    }
}

/// Up to three opcodes that may stand anywhere: passed over, of the palette, or a send, which does
/// nothing where no frame is finished and unsent.
pub(crate) fn others(rng: &mut Seeded, opcodes: &mut Vec<Opcode>) {
    for _ in 0..rng.below(4) {
        let opcode = match rng.below(8) {
            0 => gradient(rng),
            1 => set_palette(rng),
            2 => set_palette_compressed(rng),
            3 if rng.one_in(4) => send(rng),
            _ => passed_over(rng),
        };
        opcodes.push(opcode);
    }
}

fn passed_over(rng: &mut Seeded) -> Opcode {
    let (kind, length) = (rng.pick(&PASSED_OVER), rng.below(24));
    Opcode::new(kind, rng.byte(), rng.bytes(length))
}

/// Opcode 05, version 0: words that count columns and rows of blocks (02, W1).
pub fn init_video(size: Size) -> Opcode {
    let words = [size.columns, size.rows].map(|blocks| (blocks as u16).to_le_bytes());
    Opcode::new(0x05, 0, words.concat())
}

/// Opcode 05 in any version. The count word is any number, the true-colour word 0.
pub(crate) fn any_init_video(rng: &mut Seeded, size: Size) -> Opcode {
    let version = rng.below(3);
    let words = [rng.number() as u16, 0];
    let behind = words[..version].iter().flat_map(|word| word.to_le_bytes());
    let body = init_video(size).body.into_iter().chain(behind).collect();
    Opcode::new(0x05, version as u8, body)
}

/// Opcode 07 in either version. Its words are not read.
pub(crate) fn send(rng: &mut Seeded) -> Opcode {
    let version = rng.below(2);
    Opcode::new(0x07, version as u8, rng.bytes(4 + 2 * version))
}

/// Opcode 0B. Either gradient may be absent, and then has any base.
fn gradient(rng: &mut Seeded) -> Opcode {
    let body = [one_gradient(rng), one_gradient(rng)].concat();
    Opcode::new(0x0B, 0, body)
}

fn one_gradient(rng: &mut Seeded) -> [u8; 3] {
    let (rows, columns) = (rng.below(17), rng.below(17));
    let last_base = 256 - rows * columns;
    let base = match rows * columns {
        0 => rng.byte(),
        _ => rng.below(last_base + 1).min(255) as u8,
    };
    [base, rows as u8, columns as u8]
}

/// Opcode 0C, now and then with no entry or with all of them.
fn set_palette(rng: &mut Seeded) -> Opcode {
    let (start, count) = match rng.below(6) {
        0 => (rng.below(257), 0),
        1 => (0, 256),
        _ => {
            let start = rng.below(256);
            (start, rng.between(1, (256 - start).min(6)))
        }
    };
    let words = [start as u16, count as u16].map(u16::to_le_bytes).concat();
    Opcode::new(0x0C, 0, [words, components(rng, count * 3)].concat())
}

/// Opcode 0D, with few or many entries.
fn set_palette_compressed(rng: &mut Seeded) -> Opcode {
    let sparse = !rng.one_in(4);
    let mut body = Vec::new();
    for _ in 0..32 {
        let mask = if sparse && !rng.one_in(8) { 0 } else { rng.byte() };
        body.push(mask);
        body.extend(components(rng, mask.count_ones() as usize * 3));
    }
    Opcode::new(0x0D, 0, body)
}

/// Colour components, 0 to 63.
fn components(rng: &mut Seeded, count: usize) -> Vec<u8> {
    (0..count).map(|_| rng.byte() % 64).collect()
}

/// Spreads opcodes over chunks, some ended by 01, some empty.
fn in_chunks(rng: &mut Seeded, opcodes: Vec<Opcode>) -> Vec<Chunk> {
    let mut chunks = Vec::new();
    let mut chunk = new_chunk(rng);
    for opcode in opcodes {
        chunk.opcodes.push(opcode);
        if rng.one_in(4) || chunk.length() > FULL_CHUNK {
            close(rng, &mut chunks, chunk);
            chunk = new_chunk(rng);
        }
    }
    close(rng, &mut chunks, chunk);
    chunks
}

fn new_chunk(rng: &mut Seeded) -> Chunk {
    Chunk { kind: rng.pick(&[0, 1, 2, 3, 4, 5, 0xFFFF]), ..Chunk::default() }
}

fn close(rng: &mut Seeded, chunks: &mut Vec<Chunk>, mut chunk: Chunk) {
    if rng.one_in(2) {
        chunk.opcodes.push(Opcode::new(0x01, 0, Vec::new()));
    }
    chunks.push(chunk);
    if rng.one_in(8) {
        chunks.push(new_chunk(rng));
    }
}

/// Ends a film by 00, with or without bytes behind its chunk, or by nothing. Gives those bytes.
fn end(rng: &mut Seeded, chunks: &mut Vec<Chunk>) -> Vec<u8> {
    if rng.one_in(3) {
        return Vec::new();
    }
    let mut last = new_chunk(rng);
    if rng.one_in(2) {
        last.opcodes.push(passed_over(rng));
    }
    last.opcodes.push(Opcode::new(0x00, 0, Vec::new()));
    chunks.push(last);
    let length = if rng.one_in(2) { rng.between(1, 9) } else { 0 };
    rng.bytes(length)
}

/// Films of random chunks and opcodes: sound heads, bodies without meaning.
pub fn hostile(rng: &mut Seeded) -> Vec<u8> {
    hostile_of(rng, |rng| {
        let (kind, version) = (rng.byte() % 0x18, rng.byte() % 3);
        let length = rng.pick(&[0, 4, 6, 8, 14, 15, 32, 40]);
        Opcode::new(kind, version, rng.bytes(length))
    })
}

/// Films of a few chunks of such opcodes, with bytes behind them now and then.
pub(crate) fn hostile_of(rng: &mut Seeded, opcode: impl Fn(&mut Seeded) -> Opcode) -> Vec<u8> {
    let (size, stream) = (Size::small(rng), NO_STREAM);
    let mut film = Film { size, stream, chunks: Vec::new(), tail: Vec::new() };
    for _ in 0..rng.below(4) {
        let mut chunk = new_chunk(rng);
        for _ in 0..rng.below(5) {
            chunk.opcodes.push(opcode(rng));
        }
        film.chunks.push(chunk);
    }
    if rng.one_in(2) {
        let length = rng.below(40);
        film.tail = rng.bytes(length);
    }
    film.bytes()
}
