//! Frames of one's own (02, W10): an encoder that tries the choices of each block by decoding them.

use crate::block::{self, Source};
use crate::frame::{FrameSize, BLOCK_PIXELS, BLOCK_SIDE};
use crate::refusal::{self, Refusal};
use std::collections::BTreeSet;

/// The codes that a block may be given.
pub const CODES: [u8; 8] = [0x0, 0x1, 0x7, 0xB, 0xC, 0xD, 0xE, 0xF];
/// The zero bytes in front of a packet.
pub const FRONT: usize = 14;
/// The most bytes of a packet with its front.
pub const MOST: usize = 65_531;

/// The code whose colours are a pair and whose further bytes choose between them.
const TWO_COLOURS: u8 = 0x7;

/// The pixels of a block, row by row.
pub type Square = [u8; BLOCK_PIXELS];

/// A code with its data bytes.
#[derive(Clone, Debug, PartialEq, Eq, PartialOrd, Ord)]
pub struct Choice {
    /// The code.
    pub code: u8,
    /// As many bytes as it has.
    pub data: Vec<u8>,
}

impl Choice {
    /// What it decodes to, where front and back have these pixels in its place.
    pub fn decoded(&self, front: &Square, back: &Square) -> Square {
        std::array::from_fn(|i| match self.source(i) {
            Source::Data(index) => self.data[index],
            Source::Front(index) => front[index],
            Source::Back(index) => back[index],
        })
    }

    /// Where pixel `i` is read from, in a picture that is this block alone.
    fn source(&self, i: usize) -> Source {
        block::source(1, self.code, &self.data, 0, 0, i).expect("as many bytes as the code has")
    }
}

/// The choices that give a wanted block, each code with every form.
pub fn choices(wanted: &Square, front: &Square, back: &Square) -> Vec<Choice> {
    let tried = CODES.into_iter().flat_map(|code| match code {
        TWO_COLOURS => pairs(wanted).map(|pair| of_pair(wanted, pair)).collect(),
        _ => vec![of_bytes(wanted, code)],
    });
    tried.filter(|choice| choice.decoded(front, back) == *wanted).collect()
}

/// Of them the one with the fewest data bytes; of as many the lowest code.
pub fn least(wanted: &Square, front: &Square, back: &Square) -> Choice {
    let choices = choices(wanted, front, back).into_iter();
    choices.min_by_key(|choice| (choice.data.len(), choice.code)).expect("B gives every block")
}

/// A code whose bytes are colours, or which has none: each byte as a pixel that reads it is wanted.
fn of_bytes(wanted: &Square, code: u8) -> Choice {
    let length = block::length(code, &[]).expect("no byte chooses a form");
    let mut choice = Choice { code, data: vec![0; length] };
    for (i, &pixel) in wanted.iter().enumerate() {
        if let Source::Data(index) = choice.source(i) {
            choice.data[index] = pixel;
        }
    }
    choice
}

/// The ordered pairs of colours that a block of two colours can have: no other colour is wanted.
fn pairs(wanted: &Square) -> impl Iterator<Item = [u8; 2]> {
    let colours: BTreeSet<u8> = wanted.iter().copied().collect();
    let pairs = match colours.iter().copied().collect::<Vec<u8>>()[..] {
        [one] => vec![[one, one]],
        [low, high] => vec![[low, high], [high, low]],
        _ => Vec::new(),
    };
    pairs.into_iter()
}

/// Code 7 with this pair: each bit is set where all pixels that then take the second colour are wanted so.
fn of_pair(wanted: &Square, pair: [u8; 2]) -> Choice {
    let length = block::length(TWO_COLOURS, &pair).expect("a pair chooses the form");
    let mut choice = Choice { code: TWO_COLOURS, data: [&pair[..], &vec![0; length - 2]].concat() };
    for (byte, bit) in (2..length).flat_map(|byte| (0..8).map(move |bit| (byte, bit))) {
        choice.data[byte] |= 1 << bit;
        let is_second = |i: usize| choice.source(i) == Source::Data(1);
        if (0..BLOCK_PIXELS).any(|i| is_second(i) && wanted[i] != pair[1]) {
            choice.data[byte] &= !(1 << bit);
        }
    }
    choice
}

/// Map and packet of a picture.
#[derive(Clone, Debug, PartialEq, Eq)]
pub struct Encoded {
    /// A nibble a block, low nibble first; a spare one is 0.
    pub map: Vec<u8>,
    /// The packet, behind its 14 zero bytes.
    pub body: Vec<u8>,
}

/// Map and packet that give the wanted picture, for rooms of so many bytes: 6, 8, 23, 19.
pub fn encode(
    columns: usize,
    rows: usize,
    wanted: &[u8],
    front: &[u8],
    back: &[u8],
    map_room: usize,
    body_room: usize,
) -> Result<Encoded, Refusal> {
    let size = FrameSize::new(columns, rows)?;
    if [wanted, front, back].iter().any(|picture| picture.len() < size.pixels()) {
        return Err(Refusal::new(refusal::LENT));
    }
    let (mut map, mut body) = (vec![0; size.map_length()], vec![0; FRONT]);
    for number in 0..size.blocks() {
        let [wanted, front, back] = [wanted, front, back].map(|of| square(size, of, number));
        let Choice { code, data } = least(&wanted, &front, &back);
        map[number / 2] |= code << (number % 2 * 4);
        body.extend(data);
    }
    if body.len() > MOST {
        return Err(Refusal::new(refusal::PACKET_LENGTH));
    }
    if map_room < map.len() || body_room < body.len() {
        return Err(Refusal::new(refusal::ROOM));
    }
    Ok(Encoded { map, body })
}

/// The pixels of a block of a picture.
pub fn square(size: FrameSize, picture: &[u8], number: usize) -> Square {
    let (x, y) = size.corner(number);
    std::array::from_fn(|i| picture[(y + i / BLOCK_SIDE) * size.width() + x + i % BLOCK_SIDE])
}
