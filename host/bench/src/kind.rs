//! The kinds of frames, and the frames of a kind.

use maker::form::Block;
use maker::packet::Draft;
use maker::{Form, Packet, Seeded, Size};

/// Frames that are timed of each kind: more than one, so that no program is timed on a packet that
/// the processor's branch predictors have just learned.
const TIMED: usize = 4;

/// Frames in front of them, which paint both pictures without reading either.
pub const PRIMERS: usize = 2;

/// Codes that paint every pixel, in few enough bytes for the largest frame.
const PAINTING: &[u8] = &[0x7, 0x8, 0x9, 0xC, 0xD, 0xE, 0xF];

/// The bytes of blocks that a packet of a film can hold: an opcode's length is a word, and 14
/// bytes are skipped.
const MOST_DATA: usize = 65_521;

const LARGE: Size = Size { columns: 80, rows: 60 };
/// A packet does not hold 60 rows of code C alone.
const LARGE_C: Size = Size { columns: 80, rows: 50 };
const SMALL: Size = Size { columns: 40, rows: 24 };

/// Frames of some codes.
#[derive(Clone, Copy, Debug)]
pub struct Kind {
    /// The codes, as the tables and the arguments of the program name them.
    pub name: &'static str,
    /// The size.
    pub size: Size,
    codes: &'static [u8],
    /// Whether a block has, seven times of ten, the code of the block before it.
    runs: bool,
}

impl Kind {
    const fn random(name: &'static str, size: Size, codes: &'static [u8]) -> Kind {
        Kind { name, size, codes, runs: false }
    }

    const fn runs(name: &'static str, size: Size, codes: &'static [u8]) -> Kind {
        Kind { name, size, codes, runs: true }
    }

    /// The same codes in frames of another size.
    pub fn sized(self, size: Size) -> Kind {
        Kind { size, ..self }
    }
}

/// Every code that is taken.
const TAKEN: &[u8] = &[0x0, 0x1, 0x2, 0x3, 0x4, 0x5, 0x7, 0x8, 0x9, 0xA, 0xB, 0xC, 0xD, 0xE, 0xF];

/// Code 0 alone.
pub const SAME: Kind = Kind::random("0", LARGE, &[0x0]);
/// Every code, in runs.
pub const MIX: Kind = Kind::runs("mix", LARGE, TAKEN);

/// The kinds that the table has.
pub const KINDS: [Kind; 17] = [
    SAME,
    Kind::random("1", LARGE, &[0x1]),
    Kind::random("2-5", LARGE, &[0x2, 0x3, 0x4, 0x5]),
    Kind::runs("2-5-runs", LARGE, &[0x2, 0x3, 0x4, 0x5]),
    Kind::random("4", LARGE, &[0x4]),
    Kind::random("C", LARGE_C, &[0xC]),
    Kind::random("D", LARGE, &[0xD]),
    Kind::random("E", LARGE, &[0xE]),
    Kind::random("F", LARGE, &[0xF]),
    Kind::random("C-F", LARGE, &[0xC, 0xD, 0xE, 0xF]),
    MIX,
    Kind::random("B", SMALL, &[0xB]),
    Kind::random("7", SMALL, &[0x7]),
    Kind::random("8", SMALL, &[0x8]),
    Kind::random("9", SMALL, &[0x9]),
    Kind::random("A", SMALL, &[0xA]),
    Kind::random("7-A", SMALL, &[0x7, 0x8, 0x9, 0xA]),
];

/// The packets of a kind's frames: the primers, then those that are timed.
pub fn frames(kind: Kind, seed: u64) -> Vec<Packet> {
    let mut rng = Seeded::new(seed);
    let paint = Kind { codes: PAINTING, runs: false, ..kind };
    let primers = (0..PRIMERS).map(|_| paint);
    let kinds = primers.chain((0..TIMED).map(|_| kind));
    let packet = |kind| {
        let packet = draft(&mut rng, kind).packet();
        assert!(packet.data.len() <= MOST_DATA, "{} bytes", packet.data.len());
        packet
    };
    kinds.map(packet).collect()
}

/// So many packets of a kind.
pub fn packets(kind: Kind, seed: u64, count: usize) -> Vec<Packet> {
    let mut rng = Seeded::new(seed);
    (0..count).map(|_| draft(&mut rng, kind).packet()).collect()
}

fn draft(rng: &mut Seeded, kind: Kind) -> Draft {
    let Kind { size, codes, runs, .. } = kind;
    let mut code = rng.pick(codes);
    let mut blocks = Vec::with_capacity(size.blocks());
    for number in 0..size.blocks() {
        if !(runs && rng.below(10) < 7) {
            code = rng.pick(codes);
        }
        // At an edge codes 2 and 3 may have no vector that stays inside; others of each kind do.
        let block = loop {
            match block(rng, code, size, number) {
                Some(block) => break block,
                None => code = rng.pick(codes),
            }
        };
        blocks.push(block);
    }
    Draft { size, blocks, spare: 0, over: Vec::new() }
}

/// A block of a code, of any of its forms.
fn block(rng: &mut Seeded, code: u8, size: Size, number: usize) -> Option<Block> {
    let forms: Vec<Form> = Form::ALL.into_iter().filter(|form| form.code() == code).collect();
    rng.pick(&forms).block(rng, size, number)
}

#[cfg(test)]
mod tests {
    use super::*;

    #[test]
    fn names() {
        for (number, kind) in KINDS.iter().enumerate() {
            assert!(KINDS[..number].iter().all(|other| other.name != kind.name), "{}", kind.name);
        }
    }

    /// Every frame is valid and has blocks of its kind alone.
    #[test]
    fn valid() {
        for kind in KINDS {
            for (number, packet) in frames(kind, 1).iter().enumerate() {
                let Packet { columns, rows, map, data } = packet;
                let blocks = reference::packet::blocks(*columns, *rows, map, data);
                let codes = if number < PRIMERS { PAINTING } else { kind.codes };
                for block in blocks.expect("a valid packet") {
                    assert!(codes.contains(&block.code), "{} has {:X}", kind.name, block.code);
                }
            }
        }
    }
}
