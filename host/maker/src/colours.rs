//! Films rich in what changes the palette and the place: opcodes 0B, 0C, 0D and 0F of every kind (02,
//! W11).

use crate::film::{self, Film, Opcode};
use crate::packet::{Draft, Profile};
use crate::seeded::Seeded;
use crate::size::Size;
use reference::sound::NO_STREAM;

/// A kind of opcode whose stores are not those of a drawing.
#[derive(Clone, Copy, Debug, PartialEq, Eq, PartialOrd, Ord)]
pub enum Change {
    /// 0B with a red-blue gradient alone.
    RedBlue,
    /// 0B with a red-green gradient alone.
    RedGreen,
    /// 0B with both, side by side.
    Both,
    /// 0B with both, which have entries in common.
    Overlapping,
    /// 0B with two gradients of one entry.
    Single,
    /// 0B with both over all entries: the longest list, of 1,536 stores.
    Longest,
    /// 0B without a gradient.
    NoGradient,
    /// 0C with some entries.
    Run,
    /// 0C with all entries.
    AllEntries,
    /// 0C without an entry.
    NoEntry,
    /// 0D with some entries.
    Masks,
    /// 0D with all entries.
    AllMasks,
    /// 0D without an entry.
    NoMask,
    /// 0F.
    Map,
}

impl Change {
    /// Every kind.
    pub const ALL: [Change; 14] = [
        Change::RedBlue,
        Change::RedGreen,
        Change::Both,
        Change::Overlapping,
        Change::Single,
        Change::Longest,
        Change::NoGradient,
        Change::Run,
        Change::AllEntries,
        Change::NoEntry,
        Change::Masks,
        Change::AllMasks,
        Change::NoMask,
        Change::Map,
    ];

    /// A valid opcode of the kind.
    pub fn opcode(self, rng: &mut Seeded) -> Opcode {
        let absent = [rng.byte(), 0, rng.byte()];
        match self {
            Change::RedBlue => gradients(gradient(rng, 0, 256), absent),
            Change::RedGreen => gradients(absent, gradient(rng, 0, 256)),
            Change::Both => gradients(gradient(rng, 0, 128), gradient(rng, 128, 256)),
            Change::Overlapping => {
                // Both lie over entry 127, and not in the same place but by chance.
                let second = [rng.between(116, 127) as u8, 4, rng.between(3, 5) as u8];
                gradients([rng.between(120, 127) as u8, 2, 4], second)
            }
            Change::Single => {
                let [base, other] = [rng.byte(), rng.byte()];
                gradients([base, 1, 1], [rng.pick(&[base, other]), 1, 1])
            }
            Change::Longest => gradients([0, 16, 16], [0, 16, 16]),
            Change::NoGradient => gradients(absent, [rng.byte(), rng.byte(), 0]),
            Change::Run => {
                let start = rng.below(256);
                let count = rng.between(1, (256 - start).min(12));
                entries(rng, start, count)
            }
            Change::AllEntries => entries(rng, 0, 256),
            Change::NoEntry => {
                let start = rng.below(257);
                entries(rng, start, 0)
            }
            Change::Masks => {
                let groups = [rng.below(32), rng.below(32)];
                masks(rng, |rng, group| if groups.contains(&group) { rng.byte() | 4 } else { 0 })
            }
            Change::AllMasks => masks(rng, |_, _| 0xFF),
            Change::NoMask => masks(rng, |_, _| 0),
            Change::Map => {
                let length = rng.below(9);
                Opcode::new(0x0F, 0, rng.bytes(length))
            }
        }
    }

    /// An opcode of any kind.
    pub fn any(rng: &mut Seeded) -> Opcode {
        let change = rng.pick(&Change::ALL);
        change.opcode(rng)
    }
}

/// Base, rows and columns of a gradient with several entries from `first` to `end`.
fn gradient(rng: &mut Seeded, first: usize, end: usize) -> [u8; 3] {
    let (rows, columns) = (rng.between(1, 6), rng.between(2, 6));
    let base = rng.between(first, end - rows * columns);
    [base as u8, rows as u8, columns as u8]
}

fn gradients(red_blue: [u8; 3], red_green: [u8; 3]) -> Opcode {
    Opcode::new(0x0B, 0, [red_blue, red_green].concat())
}

fn entries(rng: &mut Seeded, start: usize, count: usize) -> Opcode {
    let words = [start as u16, count as u16].map(u16::to_le_bytes).concat();
    Opcode::new(0x0C, 0, [words, components(rng, count)].concat())
}

fn masks(rng: &mut Seeded, mask: impl Fn(&mut Seeded, usize) -> u8) -> Opcode {
    let mut body = Vec::new();
    for group in 0..32 {
        let mask = mask(rng, group);
        body.push(mask);
        body.extend(components(rng, mask.count_ones() as usize));
    }
    Opcode::new(0x0D, 0, body)
}

/// Red, green and blue of so many entries, 0 to 63.
fn components(rng: &mut Seeded, entries: usize) -> Vec<u8> {
    (0..3 * entries).map(|_| rng.byte() % 64).collect()
}

/// A film of so many frames of few blocks, with such opcodes before and behind the size, and between
/// the map, the drawing and the sending of each frame. A map that another 0F replaces is any bytes.
pub fn film(rng: &mut Seeded, frames: usize) -> Film {
    let size = Size::new(rng.between(1, 3), rng.between(1, 2));
    let mut opcodes = Vec::new();
    some(rng, &mut opcodes);
    opcodes.push(film::init_video(size));
    for _ in 0..frames {
        some(rng, &mut opcodes);
        let profile = rng.pick(&Profile::MANY);
        let packet = Draft::make(rng, size, profile).or_strip(rng).or_padded(rng).packet();
        let [map, video] = film::packet_opcodes(rng, packet);
        opcodes.push(map);
        some_colours(rng, &mut opcodes);
        opcodes.push(video);
        some_colours(rng, &mut opcodes);
        opcodes.push(film::send(rng));
    }
    film::of_opcodes(rng, size, NO_STREAM, opcodes)
}

/// Up to three of any kind.
fn some(rng: &mut Seeded, opcodes: &mut Vec<Opcode>) {
    opcodes.extend((0..rng.below(4)).map(|_| Change::any(rng)));
}

/// Up to two that leave the map alone.
fn some_colours(rng: &mut Seeded, opcodes: &mut Vec<Opcode>) {
    let colours = (0..rng.below(3)).map(|_| {
        let change = rng.pick(&Change::ALL[..Change::ALL.len() - 1]);
        change.opcode(rng)
    });
    opcodes.extend(colours);
}
