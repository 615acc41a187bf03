//! Scratched films, and what is left of them (02, W13): made chunk by chunk, so that which chunks are
//! kept, and why the others are left out, is known by construction.

use crate::film::{self, Chunk, Opcode, HEADER, SOUND};
use crate::seeded::Seeded;

/// How a chunk is scratched, each with the number of refusal that it is made for.
#[derive(Clone, Copy, Debug, PartialEq, Eq)]
pub enum Scratch {
    /// Too few bytes for a head at the end of the chunk: 3.
    LooseBytes,
    /// An opcode that passes its chunk: 3.
    PastChunk,
    /// An opcode behind 00 or 01: 3.
    BehindEnd,
    /// A type that is not taken: 4.
    Type,
    /// A version that is not taken: 4.
    Version,
    /// A version of sound that is not taken: 4.
    SoundVersion,
    /// A body of a wrong length: 5.
    Length,
    /// An 0C or 0D that its content does not fill exactly: 5.
    PaletteLength,
    /// Sound with a body of a wrong length: 5.
    SoundLength,
}

impl Scratch {
    /// Every kind.
    pub const ALL: [Scratch; 9] = [
        Scratch::LooseBytes,
        Scratch::PastChunk,
        Scratch::BehindEnd,
        Scratch::Type,
        Scratch::Version,
        Scratch::SoundVersion,
        Scratch::Length,
        Scratch::PaletteLength,
        Scratch::SoundLength,
    ];

    /// The number of refusal.
    pub fn number(self) -> u8 {
        match self {
            Scratch::LooseBytes | Scratch::PastChunk | Scratch::BehindEnd => 3,
            Scratch::Type | Scratch::Version | Scratch::SoundVersion => 4,
            Scratch::Length | Scratch::PaletteLength | Scratch::SoundLength => 5,
        }
    }
}

/// A chunk of a scratched film.
#[derive(Clone, Debug)]
pub struct Made {
    /// Its bytes, with its head.
    pub bytes: Vec<u8>,
    /// The scratch that is first met in it.
    pub scratch: Option<Scratch>,
    /// Whether opcode 00 is in it.
    pub ends: bool,
}

/// A scratched film as its maker keeps it.
#[derive(Clone, Debug)]
pub struct Scratched {
    /// The chunks.
    pub chunks: Vec<Made>,
    /// Bytes behind the last chunk: none, or a chunk or a head that passes the film's end.
    pub tail: Vec<u8>,
}

impl Scratched {
    /// The bytes.
    pub fn bytes(&self) -> Vec<u8> {
        let chunks = self.chunks.iter().flat_map(|chunk| chunk.bytes.iter().copied());
        HEADER.iter().copied().chain(chunks).chain(self.tail.iter().copied()).collect()
    }

    /// The chunks that a walk comes to: up to the first kept one with opcode 00, with their positions.
    pub fn walked(&self) -> Vec<(usize, &Made)> {
        let (mut at, mut walked) = (HEADER.len(), Vec::new());
        for chunk in &self.chunks {
            walked.push((at, chunk));
            at += chunk.bytes.len();
            if chunk.ends && chunk.scratch.is_none() {
                break;
            }
        }
        walked
    }
}

/// A film of a few chunks, about half of them scratched, any of them with opcode 00 now and then.
pub fn make(rng: &mut Seeded) -> Scratched {
    let chunks = (0..rng.below(8)).map(|_| chunk(rng)).collect();
    Scratched { chunks, tail: tail(rng) }
}

/// Bytes that pass the film's end, or none.
fn tail(rng: &mut Seeded) -> Vec<u8> {
    match rng.below(4) {
        0 => {
            let length = rng.between(1, 3);
            rng.bytes(length)
        }
        1 => {
            let (length, excess) = (rng.below(20), rng.between(1, 500));
            let head = [(length + excess) as u16, 0].map(u16::to_le_bytes).concat();
            [head, rng.bytes(length)].concat()
        }
        _ => Vec::new(),
    }
}

/// Empty, sane or scratched once or twice.
fn chunk(rng: &mut Seeded) -> Made {
    let mut chunk = Chunk { kind: rng.below(6) as u16, ..Chunk::default() };
    for _ in 0..rng.below(4) {
        chunk.opcodes.push(sane(rng));
    }
    let ends = rng.one_in(6);
    let end = rng.one_in(3).then(|| Opcode::new(0x01, 0, Vec::new()));
    let mut scratch = None;
    if rng.one_in(2) {
        let first = rng.pick(&Scratch::ALL);
        scratch = Some(first);
        put(rng, &mut chunk, first);
        if first == Scratch::LooseBytes {
            return Made { bytes: chunk.bytes(), scratch, ends: false };
        }
        if rng.one_in(4) {
            let behind = rng.pick(&Scratch::ALL);
            put(rng, &mut chunk, behind);
        }
    }
    if ends {
        chunk.opcodes.push(Opcode::new(0x00, 0, Vec::new()));
    } else {
        chunk.opcodes.extend(end);
    }
    let ends = ends || chunk.opcodes.iter().any(|opcode| opcode.kind == 0x00);
    Made { bytes: chunk.bytes(), scratch, ends }
}

/// Scratches a chunk behind its opcodes. What stands behind a scratch is not read.
fn put(rng: &mut Seeded, chunk: &mut Chunk, kind: Scratch) {
    match kind {
        Scratch::LooseBytes => {
            let length = rng.between(1, 3);
            chunk.loose = rng.bytes(length);
        }
        Scratch::PastChunk => {
            let mut opcode = sane(rng);
            opcode.stated_length = Some(rng.between(40_000, 0xFFFF) as u16);
            chunk.opcodes.push(opcode);
        }
        Scratch::BehindEnd => {
            chunk.opcodes.push(Opcode::new(rng.pick(&[0x00, 0x01]), 0, Vec::new()));
            chunk.opcodes.push(sane(rng));
        }
        Scratch::Type => {
            let kind = rng.pick(&[0x06, 0x0E, 0x10, 0x16, 0x80, 0xFF]);
            let length = rng.below(9);
            chunk.opcodes.push(Opcode::new(kind, 0, rng.bytes(length)));
        }
        Scratch::Version => {
            let (kind, most) = rng.pick(&VERSIONS);
            let length = rng.below(20);
            let version = rng.between(usize::from(most) + 1, 255) as u8;
            chunk.opcodes.push(Opcode::new(kind, version, rng.bytes(length)));
        }
        Scratch::SoundVersion => {
            let kind = rng.pick(&SOUND);
            let most = if kind == 0x03 { 1 } else { 0 };
            let length = rng.below(20);
            let version = rng.between(most + 1, 255) as u8;
            chunk.opcodes.push(Opcode::new(kind, version, rng.bytes(length)));
        }
        Scratch::Length => {
            let (kind, version, length) = rng.pick(&WRONG_LENGTHS);
            chunk.opcodes.push(Opcode::new(kind, version, rng.bytes(length)));
        }
        Scratch::PaletteLength => chunk.opcodes.push(wrong_palette(rng)),
        Scratch::SoundLength => {
            let (kind, version, length) = rng.pick(&WRONG_SOUND);
            chunk.opcodes.push(Opcode::new(kind, version, rng.bytes(length)));
        }
    }
}

/// The types whose body may have any bytes behind a version that is not taken, with the last one that is.
const VERSIONS: [(u8, u8); 7] =
    [(0x05, 2), (0x07, 1), (0x0B, 0), (0x0C, 0), (0x0D, 0), (0x0F, 0), (0x11, 0)];

const WRONG_LENGTHS: [(u8, u8, usize); 12] = [
    (0x05, 0, 3),
    (0x05, 0, 6),
    (0x05, 1, 4),
    (0x05, 2, 10),
    (0x07, 0, 0),
    (0x07, 0, 6),
    (0x07, 1, 4),
    (0x0B, 0, 5),
    (0x0B, 0, 7),
    (0x11, 0, 0),
    (0x11, 0, 13),
    (0x07, 1, 7),
];

const WRONG_SOUND: [(u8, u8, usize); 9] = [
    (0x03, 0, 7),
    (0x03, 0, 10),
    (0x03, 1, 8),
    (0x03, 1, 11),
    (0x08, 0, 0),
    (0x08, 0, 5),
    (0x09, 0, 0),
    (0x09, 0, 5),
    (0x09, 0, 7),
];

/// An 0C whose count is not that of its bytes, or an 0D with a byte too many or too few, or neither
/// words nor masks at all.
fn wrong_palette(rng: &mut Seeded) -> Opcode {
    let entries = rng.below(4);
    let mut body = [rng.below(300) as u16, entries as u16].map(u16::to_le_bytes).concat();
    body.extend(rng.bytes(3 * entries));
    match rng.below(6) {
        0 => Opcode::new(0x0C, 0, Vec::new()),
        1 => {
            body.pop();
            Opcode::new(0x0C, 0, body)
        }
        2 => {
            body.push(rng.byte());
            Opcode::new(0x0C, 0, body)
        }
        3 => Opcode::new(0x0D, 0, vec![0; 31]),
        4 => Opcode::new(0x0D, 0, vec![0; 33]),
        _ => {
            let mut body = vec![0; 32];
            body[rng.below(32)] = 1 << rng.below(8); // three bytes that are not there
            Opcode::new(0x0D, 0, body)
        }
    }
}

/// An opcode that 3, 4 and 5 do not refuse, whatever its content: sizes, palettes and packets that
/// later tests refuse are among them.
fn sane(rng: &mut Seeded) -> Opcode {
    match rng.below(10) {
        0 => {
            let version = rng.below(3);
            Opcode::new(0x05, version as u8, rng.bytes(4 + 2 * version))
        }
        1 => film::send(rng),
        2 => Opcode::new(0x0B, 0, rng.bytes(6)),
        3 => {
            let (start, count) = (rng.number() as u16, rng.below(5));
            let words = [start, count as u16].map(u16::to_le_bytes).concat();
            Opcode::new(0x0C, 0, [words, rng.bytes(3 * count)].concat())
        }
        4 => {
            let mut body = Vec::new();
            for _ in 0..32 {
                let mask = if rng.one_in(8) { rng.byte() } else { 0 };
                body.push(mask);
                body.extend(rng.bytes(3 * mask.count_ones() as usize));
            }
            Opcode::new(0x0D, 0, body)
        }
        5 => {
            let length = rng.below(30);
            Opcode::new(0x0F, 0, rng.bytes(length))
        }
        6 => {
            let length = rng.between(14, 60);
            Opcode::new(0x11, 0, rng.bytes(length))
        }
        7 => {
            let version = rng.below(2);
            Opcode::new(0x03, version as u8, rng.bytes(8 + 2 * version))
        }
        8 => {
            let data = rng.one_in(2);
            let length = if data { rng.between(6, 40) } else { 6 };
            Opcode::new(if data { 0x08 } else { 0x09 }, 0, rng.bytes(length))
        }
        _ => {
            let (kind, length) = (rng.pick(&[0x02, 0x04, 0x0A, 0x12, 0x15]), rng.below(24));
            Opcode::new(kind, rng.byte(), rng.bytes(length))
        }
    }
}
