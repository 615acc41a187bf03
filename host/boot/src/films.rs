//! The made films.

use maker::film::{init_video, packet_opcodes, Chunk, Film, Opcode};
use maker::packet::{Draft, Strip};
use maker::{Form, Profile, Seeded, Size};
use reference::sound::NO_STREAM;

/// 8x6 blocks, which are 64x48 pixels.
pub const SIZE: Size = Size { columns: 8, rows: 6 };

/// A film of chunks of these opcodes, behind some colours and the size.
fn of_parts(size: Size, parts: impl IntoIterator<Item = Vec<Opcode>>) -> Film {
    let chunk = |opcodes| Chunk { opcodes, ..Chunk::default() };
    let first = vec![colours(240, 16, |entry| [entry % 64, 63, entry / 4]), init_video(size)];
    let last = vec![Opcode::new(0x00, 0, Vec::new())];
    let chunks = [first].into_iter().chain(parts).chain([last]).map(chunk).collect();
    Film { size, stream: NO_STREAM, chunks, tail: Vec::new() }
}

/// All codes: 256 colours, no two of which are the same, and so many pictures, each of blocks of every
/// form. In some only a strip is touched. Some are drawn twice before they are sent.
pub fn all_codes(seed: u64, pictures: usize) -> Film {
    let rng = &mut Seeded::new(seed);
    let all = vec![colours(0, 256, |entry| [entry % 64, entry / 64, 17])];
    let part = |number: usize| {
        let mut opcodes = mixed(rng, SIZE, number);
        if number % 3 == 1 {
            opcodes.pop();
            opcodes.extend(mixed(rng, SIZE, number));
        }
        opcodes
    };
    let parts: Vec<_> = (0..pictures).map(part).collect();
    of_parts(SIZE, [all].into_iter().chain(parts))
}

/// Many pictures of two blocks, with colours that change now and then: short steps.
pub fn tiny(seed: u64, pictures: usize) -> Film {
    let rng = &mut Seeded::new(seed);
    let size = Size::new(2, 1);
    let part = |number: usize| {
        let mut opcodes = mixed(rng, size, number);
        if number % 3 == 0 {
            opcodes.insert(2, some_colours(rng, 6));
        }
        opcodes
    };
    let parts: Vec<_> = (0..pictures).map(part).collect();
    of_parts(size, parts)
}

/// The codes of the blocks in a film's packets.
pub fn codes(film: &Film) -> [bool; 16] {
    let mut codes = [false; 16];
    let opcodes = film.chunks.iter().flat_map(|chunk| &chunk.opcodes);
    for map in opcodes.filter(|opcode| opcode.kind == 0x0F) {
        for byte in &map.body {
            codes[usize::from(byte & 15)] = true;
            codes[usize::from(byte >> 4)] = true;
        }
    }
    codes
}

/// Map, packet and send of a picture.
fn mixed(rng: &mut Seeded, size: Size, number: usize) -> Vec<Opcode> {
    let mut draft = Draft::make(rng, size, Profile::Mixed);
    draft.spare = 0;
    if number % 2 == 1 {
        let strip = rng.pick(&Strip::ALL);
        draft = draft.strip(rng, strip);
    }
    let [map, video] = packet_opcodes(rng, draft.packet());
    vec![map, video, send()]
}

/// Colours that change by 0B, 0C and 0D in turn, in front of the drawing and between drawing and
/// sending: so many pictures of few blocks.
pub fn palettes(seed: u64, pictures: usize) -> Film {
    let rng = &mut Seeded::new(seed);
    let size = Size::new(4, 3);
    let part = |number: usize| {
        let draft = Draft::make(rng, size, Profile::Only(Form::Raw2x2));
        let [map, video] = packet_opcodes(rng, draft.packet());
        let change = |rng: &mut Seeded, which: usize| match which % 3 {
            0 => gradients(rng),
            1 => some_colours(rng, 100),
            _ => masked_colours(rng),
        };
        let (before, between) = (change(rng, number), change(rng, number + 1));
        vec![before, map, video, between, send()]
    };
    let parts: Vec<_> = (0..pictures).map(part).collect();
    of_parts(size, parts)
}

/// Opcode 07.
fn send() -> Opcode {
    Opcode::new(0x07, 0, vec![0; 4])
}

/// Opcode 0C: so many colours from an entry on.
fn colours(start: usize, count: usize, of: impl Fn(u8) -> [u8; 3]) -> Opcode {
    let words = [start as u16, count as u16].map(u16::to_le_bytes).concat();
    let colours = (start..start + count).flat_map(|entry| of(entry as u8));
    Opcode::new(0x0C, 0, words.into_iter().chain(colours).collect())
}

fn some_colours(rng: &mut Seeded, count: usize) -> Opcode {
    let start = rng.below(257 - count);
    let salt = rng.byte();
    colours(start, count, |entry| [entry.wrapping_add(salt), salt, entry].map(|byte| byte % 64))
}

/// Opcode 0B: both gradients, the second behind the first.
fn gradients(rng: &mut Seeded) -> Opcode {
    let (rows, columns) = (rng.between(2, 8), rng.between(2, 16));
    let base = rng.below(257 - 2 * rows * columns);
    let one = |base: usize| [base as u8, rows as u8, columns as u8];
    Opcode::new(0x0B, 0, [one(base), one(base + rows * columns)].concat())
}

/// Opcode 0D: half of the entries.
fn masked_colours(rng: &mut Seeded) -> Opcode {
    let mut body = Vec::new();
    for _ in 0..32 {
        let mask = rng.byte();
        body.push(mask);
        body.extend((0..3 * mask.count_ones()).map(|_| rng.byte() % 64));
    }
    Opcode::new(0x0D, 0, body)
}
