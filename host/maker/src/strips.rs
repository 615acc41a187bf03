//! Films with much that the player passes over (02, W14): opcodes of every type that has no part in
//! pictures and sound, sound for several streams, empty chunks and chunks behind 00. What is left of them
//! for a stream is known by construction.

use crate::film::{self, Chunk, Opcode, HEADER};
use crate::film_damage;
use crate::seeded::Seeded;
use crate::sound::{Format, Track};
use reference::sound::{NO_STREAM, STREAMS};

/// The types that are passed over whatever the stream.
const PASSED_OVER: [u8; 7] = [0x02, 0x04, 0x0A, 0x12, 0x13, 0x14, 0x15];

/// Whom an opcode is for.
#[derive(Clone, Copy, Debug, PartialEq, Eq)]
pub enum For {
    /// Every player.
    All,
    /// A player of any stream.
    Sound,
    /// Players of the streams in the mask.
    Streams(u16),
    /// Nobody.
    Nobody,
}

impl For {
    /// Whether a player of this stream acts on it.
    pub fn is_for(self, stream: usize) -> bool {
        match self {
            For::All => true,
            For::Sound => stream < STREAMS,
            For::Streams(mask) => stream < STREAMS && mask >> stream & 1 == 1,
            For::Nobody => false,
        }
    }
}

/// A film of chunks whose opcodes tell whom they are for.
#[derive(Clone, Debug)]
pub struct Padded {
    /// The type of each chunk, and its opcodes.
    pub chunks: Vec<(u16, Vec<(For, Opcode)>)>,
    /// The streams that have sound.
    pub streams: Vec<usize>,
    /// What stands behind the chunk with 00; nothing where there is none.
    pub tail: Vec<u8>,
}

impl Padded {
    /// The bytes.
    pub fn bytes(&self) -> Vec<u8> {
        [self.with(|_| true, true), self.tail.clone()].concat()
    }

    /// What is left of it for a player of a stream.
    pub fn left(&self, stream: usize) -> Vec<u8> {
        self.with(|whom| whom.is_for(stream), false)
    }

    /// The opcodes that are dropped for a stream, in front of the tail.
    pub fn dropped(&self, stream: usize) -> impl Iterator<Item = &Opcode> {
        let opcodes = self.chunks.iter().flat_map(|(_, opcodes)| opcodes);
        opcodes.filter(move |(whom, _)| !whom.is_for(stream)).map(|(_, opcode)| opcode)
    }

    /// The chunks that nothing is left of for a stream.
    pub fn dropped_chunks(&self, stream: usize) -> usize {
        let is_empty =
            |opcodes: &[(For, Opcode)]| !opcodes.iter().any(|(whom, _)| whom.is_for(stream));
        self.chunks.iter().filter(|(_, opcodes)| is_empty(opcodes)).count()
    }

    fn with(&self, is_kept: impl Fn(For) -> bool, empty: bool) -> Vec<u8> {
        let mut film = HEADER.to_vec();
        for (kind, opcodes) in &self.chunks {
            let kept = opcodes.iter().filter(|(whom, _)| is_kept(*whom));
            let opcodes: Vec<_> = kept.map(|(_, opcode)| opcode.clone()).collect();
            if empty || !opcodes.is_empty() {
                film.extend(Chunk { kind: *kind, opcodes, ..Chunk::default() }.bytes());
            }
        }
        film
    }
}

/// A film with up to three frames and sound for up to three streams, which plays to its end for each of
/// them and for none.
pub fn make(rng: &mut Seeded) -> Padded {
    let frames = rng.below(4);
    let (_, pictures) = film::pictures(rng, frames);
    let mut sound = Sound::new(rng);
    let mut opcodes = Vec::new();
    for opcode in pictures {
        padding(rng, &mut opcodes);
        sound.some(rng, &mut opcodes);
        // the sound of a film for no stream is any bytes, which the tests of sound refuse
        if !film::SOUND.contains(&opcode.kind) {
            let passed = PASSED_OVER.contains(&opcode.kind);
            opcodes.push((if passed { For::Nobody } else { For::All }, opcode));
        }
    }
    sound.some(rng, &mut opcodes);
    padding(rng, &mut opcodes);
    let mut chunks = in_chunks(rng, opcodes);
    let tail = end(rng, &mut chunks);
    let streams = sound.tracks.iter().map(|track| track.stream).collect();
    Padded { chunks, streams, tail }
}

/// Such a film with one damage inside an opcode, which the tests of 2 to 5 do not find: where it is played,
/// it is usually refused. What is left of it is known still.
pub fn damaged(rng: &mut Seeded) -> Padded {
    let film = make(rng);
    with_damage(rng, film)
}

/// A film with such a damage.
pub(crate) fn with_damage(rng: &mut Seeded, mut film: Padded) -> Padded {
    let damage = rng.pick(&Damage::ALL);
    let is_fit = |opcode: &Opcode| damage.kinds().contains(&opcode.kind) && damage.is_fit(opcode);
    let places: Vec<(usize, usize)> = film
        .chunks
        .iter()
        .enumerate()
        .flat_map(|(chunk, (_, opcodes))| (0..opcodes.len()).map(move |at| (chunk, at)))
        .filter(|&(chunk, at)| is_fit(&film.chunks[chunk].1[at].1))
        .collect();
    if !places.is_empty() {
        let (chunk, at) = rng.pick(&places);
        damage.put(rng, &mut film.chunks[chunk].1, at);
    }
    film
}

/// What is damaged.
#[derive(Clone, Copy, Debug, PartialEq, Eq)]
enum Damage {
    /// A size, a map or a format is not there: 9, 17.
    Missing,
    /// A size comes twice, or is out of bounds: 6.
    Size,
    /// A map is longer: 10.
    MapLength,
    /// A block has code 6, or another one than it was: 12 to 15.
    Code,
    /// A packet is shorter: 13, with true colour also 5 and 20.
    Short,
    /// A packet is longer: 15.
    Long,
    /// Bytes of a packet are others: 14.
    Content,
    /// A colour is above 63: 7.
    Colour,
    /// Sound has another length than it counts: 18.
    Sound,
}

impl Damage {
    const ALL: [Damage; 9] = [
        Damage::Missing,
        Damage::Size,
        Damage::MapLength,
        Damage::Code,
        Damage::Short,
        Damage::Long,
        Damage::Content,
        Damage::Colour,
        Damage::Sound,
    ];

    /// The types that it can befall.
    fn kinds(self) -> &'static [u8] {
        match self {
            Damage::Missing => &[0x03, 0x05, 0x0F],
            Damage::Size => &[0x05],
            Damage::MapLength | Damage::Code => &[0x0F],
            Damage::Short | Damage::Long | Damage::Content => &[0x11],
            Damage::Colour => &[0x0C],
            Damage::Sound => &[0x08],
        }
    }

    /// Whether there is something to damage: of a map or a packet any byte, of a palette an entry.
    fn is_fit(self, opcode: &Opcode) -> bool {
        match self {
            Damage::Code => !opcode.body.is_empty(),
            Damage::Short | Damage::Content => opcode.body.len() > VIDEO_FRONT,
            Damage::Colour => opcode.body.len() > PALETTE_FRONT,
            _ => true,
        }
    }

    fn put(self, rng: &mut Seeded, opcodes: &mut Vec<(For, Opcode)>, at: usize) {
        let body = &mut opcodes[at].1.body;
        let length = body.len();
        match self {
            Damage::Missing => drop(opcodes.remove(at)),
            Damage::Size if rng.one_in(2) => {
                let again = opcodes[at].clone();
                opcodes.insert(at, again);
            }
            Damage::Size => body[0] = rng.pick(&[0, 81, 255]),
            Damage::MapLength | Damage::Sound => body.push(rng.byte()),
            Damage::Code => body[rng.below(length)] = rng.pick(&[0x66, 0x11, 0x22, 0x33, 0xBB]),
            Damage::Short => {
                // With true colour 14 and 15 bytes are too few for the opcode, and more for its packet.
                let most = if rng.one_in(3) { VIDEO_FRONT + 1 } else { length - 1 };
                body.truncate(rng.between(VIDEO_FRONT, most.min(length - 1)));
            }
            Damage::Long => body.extend(rng.bytes(2)),
            Damage::Content => body[rng.between(VIDEO_FRONT, length - 1)] = rng.byte(),
            Damage::Colour => body[rng.between(PALETTE_FRONT, length - 1)] |= 0x40,
        }
    }
}

/// Bytes of an 11 in front of its packet.
const VIDEO_FRONT: usize = 14;
/// Bytes of a 0C in front of its colours.
const PALETTE_FRONT: usize = 4;

/// Such a film with its bytes changed blindly.
pub fn scratched(rng: &mut Seeded) -> Vec<u8> {
    let film = make(rng).bytes();
    film_damage::scratch(rng, film)
}

/// Up to three opcodes that nobody acts on, in any version and of any length.
fn padding(rng: &mut Seeded, opcodes: &mut Vec<(For, Opcode)>) {
    for _ in 0..rng.below(4) {
        let (kind, length) = (rng.pick(&PASSED_OVER), rng.below(24));
        opcodes.push((For::Nobody, Opcode::new(kind, rng.byte(), rng.bytes(length))));
    }
}

/// Sound for several streams, which have their formats in common.
struct Sound {
    tracks: Vec<Track>,
    format: Option<Format>,
}

impl Sound {
    fn new(rng: &mut Seeded) -> Sound {
        let first = rng.below(STREAMS);
        let others = (1..STREAMS).filter(|_| rng.one_in(8)).take(2);
        let streams = Some(0).into_iter().chain(others);
        let tracks = streams.map(|step| Track::new((first + step) % STREAMS)).collect();
        Sound { tracks, format: None }
    }

    /// Up to two opcodes.
    fn some(&mut self, rng: &mut Seeded, opcodes: &mut Vec<(For, Opcode)>) {
        for _ in 0..rng.below(3) {
            let made = match self.format {
                Some(format) if !rng.one_in(8) => self.packet(rng, format),
                _ => self.start(rng),
            };
            opcodes.push(made);
        }
    }

    /// Opcode 03, for all tracks at once.
    fn start(&mut self, rng: &mut Seeded) -> (For, Opcode) {
        let format = rng.pick(&Format::ALL);
        self.format = Some(format);
        let made = self.tracks.iter_mut().map(|track| track.start(rng, format));
        let opcode = made.last().expect("a film has a track");
        (For::Sound, opcode)
    }

    /// Opcode 08 or 09 for one track alone, for all that are not silent, or for no track.
    fn packet(&mut self, rng: &mut Seeded, format: Format) -> (For, Opcode) {
        let (which, kind) = (rng.below(self.tracks.len()), rng.below(4));
        let (bits, others) = (self.bits(), rng.number() as u16);
        let (mask, mut opcode) = match kind {
            0 => (others & !bits, self.tracks[which].other(rng)),
            1 => (bits | others, self.tracks[which].silence(rng, format)),
            _ => {
                let bit = 1 << self.tracks[which].stream;
                (others & !bits | bit, self.tracks[which].data(rng, format))
            }
        };
        opcode.body[2..4].copy_from_slice(&mask.to_le_bytes());
        (For::Streams(mask), opcode)
    }

    fn bits(&self) -> u16 {
        self.tracks.iter().fold(0, |bits, track| bits | 1 << track.stream)
    }
}

/// Spreads opcodes over chunks, some of them empty, some ended by 01.
fn in_chunks(rng: &mut Seeded, opcodes: Vec<(For, Opcode)>) -> Vec<(u16, Vec<(For, Opcode)>)> {
    let mut chunks = vec![(rng.below(6) as u16, Vec::new())];
    for opcode in opcodes {
        let (_, last) = chunks.last_mut().expect("there is one");
        let length: usize = last.iter().map(|(_, opcode): &(For, Opcode)| opcode.body.len()).sum();
        last.push(opcode);
        if rng.one_in(3) || length > FULL {
            if rng.one_in(3) {
                last.push((For::All, Opcode::new(0x01, 0, Vec::new())));
            }
            let empty = if rng.one_in(6) { 2 } else { 1 };
            chunks.extend((0..empty).map(|_| (rng.number() as u16, Vec::new())));
        }
    }
    chunks
}

/// A chunk with bodies of more than this is closed, so that its length is a word.
const FULL: usize = 16_000;

/// Ends a film by 00, with chunks or any bytes behind it, or by nothing.
fn end(rng: &mut Seeded, chunks: &mut Vec<(u16, Vec<(For, Opcode)>)>) -> Vec<u8> {
    if rng.one_in(3) {
        return Vec::new();
    }
    chunks.push((5, vec![(For::All, Opcode::new(0x00, 0, Vec::new()))]));
    match rng.below(3) {
        0 => Vec::new(),
        1 => {
            let length = rng.between(1, 40);
            rng.bytes(length)
        }
        _ => film::valid(rng).bytes().split_off(HEADER.len()),
    }
}

/// A stream to strip a film for: one that has sound, another one, or none.
pub fn stream(rng: &mut Seeded, streams: &[usize]) -> usize {
    match rng.below(4) {
        0 => rng.pick(&[NO_STREAM, NO_STREAM + 1, 255, 1 << 16, usize::MAX]),
        1 => rng.below(STREAMS),
        _ if streams.is_empty() => rng.below(STREAMS),
        _ => rng.pick(streams),
    }
}
