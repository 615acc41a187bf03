//! Packets of films with true colour (02, W7): blocks of every code and form, and the packet's two parts.

use crate::form::{far_vector, one_byte_vectors, Reach};
use crate::packet::Packet;
use crate::seeded::Seeded;
use crate::size::Size;

/// The most bytes of a packet that is called alone: where its second part begins is told by a word.
pub const LONG: usize = 60_000;
/// Of a packet in a film, so that several fit a chunk.
pub const SHORT: usize = 8_000;

/// A form that a block's data can have: its code, and which of the pairs fall that are tested. The second
/// pair is that of code 9, or that of the second half in 8 and A.
#[derive(Clone, Copy, Debug, PartialEq, Eq, PartialOrd, Ord)]
pub struct WordForm {
    /// The code.
    pub code: u8,
    /// Whether the first pair falls.
    pub first_falls: bool,
    /// Whether the second one does.
    pub second_falls: bool,
}

/// A code without a pair that is tested.
const fn plain(code: u8) -> WordForm {
    falling(code, false, false)
}

const fn falling(code: u8, first_falls: bool, second_falls: bool) -> WordForm {
    WordForm { code, first_falls, second_falls }
}

/// A solid block.
pub const SOLID: WordForm = plain(0xE);

impl WordForm {
    /// Every form.
    pub const ALL: [WordForm; 24] = [
        plain(0x0),
        plain(0x1),
        plain(0x2),
        plain(0x3),
        plain(0x4),
        plain(0x5),
        plain(0x6),
        plain(0x7),
        falling(0x7, true, false),
        plain(0x8),
        falling(0x8, true, false),
        falling(0x8, true, true),
        plain(0x9),
        falling(0x9, false, true),
        falling(0x9, true, false),
        falling(0x9, true, true),
        plain(0xA),
        falling(0xA, true, false),
        falling(0xA, true, true),
        plain(0xB),
        plain(0xC),
        plain(0xD),
        SOLID,
        plain(0xF),
    ];

    /// The form of a block whose code is this and whose data begins the first part; none where bytes that
    /// choose it are missing.
    pub fn of(code: u8, first: &[u8]) -> Option<WordForm> {
        // The high bit of the colour that begins at this byte.
        let falls = |colour: usize| Some(*first.get(colour + 1)? >= 0x80);
        Some(match code {
            0x7 => falling(code, falls(0)?, false),
            0x8 if falls(0)? => falling(code, true, falls(8)?),
            0x9 => falling(code, falls(0)?, falls(4)?),
            0xA if falls(0)? => falling(code, true, falls(16)?),
            _ => plain(code),
        })
    }

    /// A block of this form for the given place in a frame; none where no vector of a copy stays inside the
    /// frame.
    pub fn block(self, rng: &mut Seeded, size: Size, number: usize) -> Option<WordBlock> {
        let reach = Reach::of(size, number);
        let WordForm { code, .. } = self;
        let (first, second) = match code {
            0x2..=0x4 => {
                let inside = one_byte_vectors(code, |vector| reach.has(vector));
                (Vec::new(), vec![*inside.get(rng.below(inside.len().max(1)))?])
            }
            0x5 | 0x6 => (far_vector(rng, &reach), Vec::new()),
            _ => (self.data(rng), Vec::new()),
        };
        Some(WordBlock { code, first, second })
    }

    /// The data of a form without a vector. High bits that tell nothing are any.
    fn data(self, rng: &mut Seeded) -> Vec<u8> {
        let WordForm { code, first_falls, second_falls } = self;
        let mut data = Data { rng, bytes: Vec::new() };
        match (code, first_falls) {
            (0x7, false) => data.pair(false).any(8),
            (0x7, true) => data.pair(true).any(2),
            (0x8, false) => data.pair(false).any(2).any(3 * 6),
            (0x8, true) => data.pair(true).any(4).pair(second_falls).any(4),
            (0x9, _) => {
                let fields = match (first_falls, second_falls) {
                    (false, false) => 16,
                    (false, true) => 4,
                    (true, _) => 8,
                };
                data.pair(first_falls).pair(second_falls).any(fields)
            }
            (0xA, false) => data.pair(false).any(4 + 4).any(3 * 12),
            (0xA, true) => data.pair(true).any(4 + 8).pair(second_falls).any(4 + 8),
            (0xB, _) => data.any(128),
            (0xC, _) => data.any(32),
            (0xD, _) => data.any(8),
            (0xE, _) => data.any(2),
            _ => &mut data,
        };
        data.bytes
    }
}

/// Data that is being written.
struct Data<'a> {
    rng: &'a mut Seeded,
    bytes: Vec<u8>,
}

impl Data<'_> {
    /// Two colours, of which the first has the high bit or not. The second has it or not, and the order of
    /// both is any, so that a decoder of 8-bit pairs goes wrong.
    fn pair(&mut self, falls: bool) -> &mut Self {
        let first = self.rng.number() as u16 & 0x7FFF | if falls { 0x8000 } else { 0 };
        let other = self.rng.number() as u16;
        let second = self.rng.pick(&[other, first, first ^ 1, first ^ 0x8000]);
        self.bytes.extend([first, second].map(u16::to_le_bytes).concat());
        self
    }

    /// So many bytes.
    fn any(&mut self, count: usize) -> &mut Self {
        let bytes = self.rng.bytes(count);
        self.bytes.extend(bytes);
        self
    }
}

/// A block of a packet: its code in the map and its bytes in both parts.
#[derive(Clone, Debug, PartialEq, Eq)]
pub struct WordBlock {
    /// The code.
    pub code: u8,
    /// The bytes of the first part.
    pub first: Vec<u8>,
    /// The bytes of the second.
    pub second: Vec<u8>,
}

/// Which blocks a packet is made of.
#[derive(Clone, Copy, Debug, PartialEq, Eq)]
pub enum WordProfile {
    /// Every form.
    Mixed,
    /// Codes 0 to 6 and F.
    Copies,
    /// Code 3 with others between: frames that read what they draw.
    NewCopies,
    /// Codes 7 to A.
    Patterns,
    /// Codes B to E.
    Raw,
    /// Codes with at most two bytes.
    Light,
    /// One form; a solid block where it is a copy that has no vector.
    Only(WordForm),
}

impl WordProfile {
    /// The profiles of more than one form.
    pub const MANY: [WordProfile; 6] = [
        WordProfile::Mixed,
        WordProfile::Copies,
        WordProfile::NewCopies,
        WordProfile::Patterns,
        WordProfile::Raw,
        WordProfile::Light,
    ];

    /// Any of them, or one form.
    pub fn any(rng: &mut Seeded) -> WordProfile {
        match rng.one_in(4) {
            true => WordProfile::Only(rng.pick(&WordForm::ALL)),
            false => rng.pick(&WordProfile::MANY),
        }
    }

    fn form(self, rng: &mut Seeded) -> WordForm {
        let codes: &[u8] = match self {
            WordProfile::Mixed => return rng.pick(&WordForm::ALL),
            WordProfile::Only(form) => return form,
            WordProfile::Patterns => return rng.pick(&WordForm::ALL[7..19]),
            WordProfile::Copies => &[0x0, 0x1, 0x2, 0x3, 0x4, 0x5, 0x6, 0xF],
            WordProfile::NewCopies => &[0x3, 0x3, 0x3, 0x1, 0x2, 0xE],
            WordProfile::Raw => &[0xB, 0xC, 0xD, 0xE],
            WordProfile::Light => &[0x0, 0x1, 0x2, 0x3, 0x4, 0x5, 0x6, 0xE, 0xF],
        };
        plain(rng.pick(codes))
    }
}

/// A packet as its maker keeps it, block by block.
#[derive(Clone, Debug)]
pub struct WordDraft {
    /// The frame size.
    pub size: Size,
    /// The blocks, left to right, then down.
    pub blocks: Vec<WordBlock>,
    /// The nibble behind the last block where their number is odd. It is not read.
    pub spare: u8,
    /// Bytes left over behind the second part. One is not read, more are not taken.
    pub over: Vec<u8>,
}

impl WordDraft {
    /// A valid packet with nothing left over, of about so many bytes at most: then blocks have none of the
    /// first part.
    pub fn make(rng: &mut Seeded, size: Size, profile: WordProfile, most: usize) -> WordDraft {
        let (mut blocks, mut length) = (Vec::new(), size.blocks());
        for number in 0..size.blocks() {
            let form = if length < most { profile.form(rng) } else { plain(rng.pick(&[0x0, 0xF])) };
            let block = form.block(rng, size, number);
            let block = block.or_else(|| SOLID.block(rng, size, number));
            let block = block.expect("a solid block has no vector");
            length += block.first.len();
            blocks.push(block);
        }
        WordDraft { size, blocks, spare: rng.byte() & 0x0F, over: Vec::new() }
    }

    /// The same with so many bytes left over behind the second part.
    pub fn with_over(self, rng: &mut Seeded, count: usize) -> WordDraft {
        WordDraft { over: rng.bytes(count), ..self }
    }

    /// The same, one time in three with a byte left over.
    pub fn or_padded(self, rng: &mut Seeded) -> WordDraft {
        let count = usize::from(rng.one_in(3));
        self.with_over(rng, count)
    }

    /// The bytes of the first part.
    pub fn first(&self) -> Vec<u8> {
        self.blocks.iter().flat_map(|block| block.first.iter().copied()).collect()
    }

    /// The bytes of the second, without those left over.
    pub fn second(&self) -> Vec<u8> {
        self.blocks.iter().flat_map(|block| block.second.iter().copied()).collect()
    }

    /// Stores that drawing the blocks from `place` on makes: 65 each.
    pub fn stores_from(&self, place: usize) -> usize {
        65 * (self.blocks.len() - place)
    }

    /// The place after drawing on from `place` with so many stores.
    pub fn place_after(&self, place: usize, allowed: usize) -> usize {
        place + (allowed / 65).min(self.blocks.len() - place)
    }

    /// The bytes.
    pub fn packet(&self) -> Packet {
        self.packet_of(&self.first(), &[self.second(), self.over.clone()].concat())
    }

    /// The map with other parts.
    pub fn packet_of(&self, first: &[u8], second: &[u8]) -> Packet {
        let offset = u16::try_from(2 + first.len()).expect("a word tells where the second part is");
        let mut codes: Vec<u8> = self.blocks.iter().map(|block| block.code).collect();
        codes.push(self.spare);
        Packet {
            columns: self.size.columns,
            rows: self.size.rows,
            map: codes.chunks_exact(2).map(|pair| pair[0] | pair[1] << 4).collect(),
            data: [&offset.to_le_bytes()[..], first, second].concat(),
        }
    }
}

/// Bytes without meaning in the shape of a packet: mostly of a legal size with the right map length and an
/// offset inside, so that checking goes on to the blocks.
pub fn hostile(rng: &mut Seeded) -> Packet {
    let mut packet = crate::packet::hostile(rng);
    if let [low, high, rest @ ..] = &mut packet.data[..] {
        if !rng.one_in(4) {
            let offset = 2 + rng.below(rest.len() + 1) as u16;
            [*low, *high] = offset.to_le_bytes();
        }
    }
    packet
}
