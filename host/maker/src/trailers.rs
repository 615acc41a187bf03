//! Frames of Microsoft Video 1 with 8-bit pixels (source document 001; 02, W12), as an encoder writes them:
//! from pictures, so that what a frame gives is known by construction; code by code; and with faults.

use crate::seeded::Seeded;
use crate::size::Size;

/// Width and height of a block in pixels.
const SIDE: usize = 4;
/// The most blocks that one code skips.
pub const LONGEST_SKIP: usize = 1023;
/// What stands behind the last block.
pub const END_MARK: [u8; 2] = [0, 0];
/// The second bytes of a block of one colour.
const ONE_COLOUR: [u8; 12] =
    [0x80, 0x81, 0x82, 0x83, 0x88, 0x89, 0x8A, 0x8B, 0x8C, 0x8D, 0x8E, 0x8F];

/// A block's pixels from the lower left one on, row by row upwards.
pub type Pixels = [u8; SIDE * SIDE];

/// The quads of a block: lower left, lower right, upper left, upper right.
const QUADS: [[usize; 4]; 4] = [[0, 1, 4, 5], [2, 3, 6, 7], [8, 9, 12, 13], [10, 11, 14, 15]];

/// Blocks of a frame of this size.
pub fn blocks(size: Size) -> usize {
    size.pixels() / (SIDE * SIDE)
}

/// Where the pixels of a block stand in the picture.
fn places(size: Size, block: usize) -> [usize; SIDE * SIDE] {
    let across = size.width() / SIDE;
    let (left, above) = (block % across * SIDE, block / across * SIDE);
    std::array::from_fn(|i| (size.height() - 1 - above - i / SIDE) * size.width() + left + i % SIDE)
}

/// The pixels of a block of a picture.
fn pixels(size: Size, picture: &[u8], block: usize) -> Pixels {
    places(size, block).map(|at| picture[at])
}

/// A skip of so many blocks, at most [`LONGEST_SKIP`].
pub fn skip(count: usize) -> [u8; 2] {
    [count as u8, 0x84 + (count >> 8) as u8]
}

/// A picture whose blocks have a code each: some as they are, the others of one, two or eight colours.
pub fn picture(rng: &mut Seeded, size: Size, before: &[u8]) -> Vec<u8> {
    let mut picture = before.to_vec();
    let (mut block, count) = (0, blocks(size));
    while block < count {
        let (run, colours) = (rng.between(1, 40).min(count - block), rng.below(4));
        for block in block..block + run {
            let quads = [(); 4].map(|()| [rng.byte(), rng.byte()]);
            for (quad, pixels) in QUADS.iter().enumerate() {
                for &i in pixels {
                    let at = places(size, block)[i];
                    picture[at] = match colours {
                        0 => picture[at],
                        1 => quads[0][0],
                        2 => quads[0][rng.below(2)],
                        _ => quads[quad][rng.below(2)],
                    };
                }
            }
        }
        block += run;
    }
    picture
}

/// A frame that makes one picture of another, with blocks that are the same in both skipped or not; none where
/// a block has more colours than a code gives it. It has no skip of no block, which libavcodec takes for another.
pub fn encoded(rng: &mut Seeded, size: Size, before: &[u8], wanted: &[u8]) -> Option<Vec<u8>> {
    let (mut data, mut skipped) = (Vec::new(), 0);
    for block in 0..blocks(size) {
        let pixels = pixels(size, wanted, block);
        let is_same = pixels == self::pixels(size, before, block);
        let code = if is_same && !rng.one_in(50) { None } else { coded(rng, pixels) };
        match code {
            Some(code) => {
                data.extend(skips(rng, skipped));
                skipped = 0;
                data.extend(code);
            }
            None if is_same => skipped += 1,
            None => return None,
        }
    }
    data.extend(skips(rng, skipped));
    data.extend(END_MARK);
    Some(data)
}

/// Codes that skip so many blocks.
fn skips(rng: &mut Seeded, mut count: usize) -> Vec<u8> {
    let mut data = Vec::new();
    while count > 0 {
        let most = count.min(LONGEST_SKIP);
        let next = if rng.one_in(4) { rng.between(1, most) } else { most };
        data.extend(skip(next));
        count -= next;
    }
    data
}

/// The code of a block, one that is long enough for its colours; none where there is no such code.
fn coded(rng: &mut Seeded, pixels: Pixels) -> Option<Vec<u8>> {
    let all: [usize; 16] = std::array::from_fn(|i| i);
    let one = pixels == [pixels[0]; 16];
    let two = pair(rng, &pixels, &all);
    if one && !rng.one_in(8) {
        return Some(vec![pixels[0], rng.pick(&ONE_COLOUR)]);
    }
    match two {
        Some(colours) if !rng.one_in(8) => Some(two_colours(pixels, colours)),
        _ => eight_colours(rng, pixels),
    }
}

/// The two colours of these pixels, in either order; none where there are more. A colour that is alone gets any
/// other beside it.
fn pair(rng: &mut Seeded, pixels: &Pixels, of: &[usize]) -> Option<[u8; 2]> {
    let one = pixels[of[0]];
    let other = of.iter().map(|&i| pixels[i]).find(|&pixel| pixel != one);
    let other = other.unwrap_or_else(|| rng.byte());
    let are_two = of.iter().all(|&i| pixels[i] == one || pixels[i] == other);
    are_two.then_some(if rng.one_in(2) { [one, other] } else { [other, one] })
}

/// Whether each pixel is the first colour of its pair, as bits.
fn flags(pixels: &Pixels, pair: impl Fn(usize) -> [u8; 2]) -> [u8; 2] {
    let set = (0..16).filter(|&i| pixels[i] == pair(i)[0]);
    set.fold(0_u16, |flags, i| flags | 1 << i).to_le_bytes()
}

/// The last flag is 0, so the upper right pixel has the second colour.
fn two_colours(pixels: Pixels, [one, other]: [u8; 2]) -> Vec<u8> {
    let last = pixels[15];
    let pair = if last == one && one != other { [other, one] } else { [one, other] };
    let [a, b] = if one == other { [0, 0] } else { flags(&pixels, |_| pair) };
    vec![a, b, pair[0], pair[1]]
}

/// The last flag is 1 and one of the three before it, too: the upper right pixel has its quad's first colour, and
/// so has the upper left one.
fn eight_colours(rng: &mut Seeded, pixels: Pixels) -> Option<Vec<u8>> {
    let mut quads = [[0; 2]; 4];
    for (quad, of) in quads.iter_mut().zip(&QUADS) {
        *quad = pair(rng, &pixels, of)?;
    }
    for (quad, corner) in [(2, 12), (3, 15)] {
        if quads[quad][0] != pixels[corner] {
            quads[quad].reverse();
        }
    }
    let quad_of = |i: usize| i / 8 * 2 + i % 4 / 2;
    let [a, b] = flags(&pixels, |i| quads[quad_of(i)]);
    Some([&[a, b], quads.as_flattened()].concat())
}

/// What a frame made code by code has.
#[derive(Clone, Copy, Debug, PartialEq, Eq)]
pub enum Codes {
    /// Blocks of one colour.
    One,
    /// Blocks of two colours.
    Two,
    /// Blocks of eight colours.
    Eight,
    /// Skips of one block or more.
    Skips,
    /// All of these, and skips of none.
    Mix,
}

/// The codes of a frame of this size, any bytes in them, with the end of each.
pub fn codes(rng: &mut Seeded, size: Size, kind: Codes) -> (Vec<u8>, Vec<usize>) {
    let (mut data, mut ends, mut left) = (Vec::new(), Vec::new(), blocks(size));
    while left > 0 {
        let kind = match kind {
            Codes::Mix => {
                rng.pick(&[Codes::One, Codes::Two, Codes::Eight, Codes::Skips, Codes::Mix])
            }
            other => other,
        };
        left -= push(rng, &mut data, kind, left);
        ends.push(data.len());
    }
    (data, ends)
}

/// Adds a code of a kind, of [`Codes::Mix`] a skip of none; the blocks that it passes, at most so many.
fn push(rng: &mut Seeded, data: &mut Vec<u8>, kind: Codes, left: usize) -> usize {
    let (a, colours) = (rng.byte(), rng.bytes(8));
    match kind {
        Codes::Skips => {
            let most = left.min(if rng.one_in(2) { 8 } else { LONGEST_SKIP });
            let count = rng.between(1, most);
            data.extend(skip(count));
            return count;
        }
        Codes::Mix => {
            data.extend(skip(0));
            return 0;
        }
        Codes::One => data.extend([a, rng.pick(&ONE_COLOUR)]),
        Codes::Two => {
            data.extend([a, rng.byte() & 0x7F]);
            data.extend(&colours[..2]);
        }
        Codes::Eight => {
            data.extend([a, rng.between(0x90, 0xFF) as u8]);
            data.extend(colours);
        }
    }
    1
}

/// A frame of this size that is accepted.
pub fn valid(rng: &mut Seeded, size: Size, kind: Codes) -> Vec<u8> {
    let (mut data, _) = codes(rng, size, kind);
    data.extend(END_MARK);
    data
}

/// What is wrong with a frame, each with the number of refusal that it is made for.
#[derive(Clone, Copy, Debug, PartialEq, Eq)]
pub enum Damage {
    /// No byte at all: 24.
    Empty,
    /// It ends between two codes: 24.
    CutBetween,
    /// It ends inside a code: 24.
    CutInside,
    /// The end mark in place of a code, where a block of two colours would be: 24.
    EarlyMark,
    /// A skip of one block too many, or of more: 25.
    SkipOutside,
    /// The same, and nothing sound behind it: 25.
    SkipOutsideThenCut,
    /// Nothing behind the last block: 26.
    NoMark,
    /// One byte of the end mark: 26.
    HalfMark,
    /// Two other bytes: 26.
    OtherMark,
    /// A skip of no block in front of the end mark: 26.
    SkipBeforeMark,
    /// Bytes behind the end mark: 26.
    BehindMark,
}

impl Damage {
    /// Every kind.
    pub const ALL: [Damage; 11] = [
        Damage::Empty,
        Damage::CutBetween,
        Damage::CutInside,
        Damage::EarlyMark,
        Damage::SkipOutside,
        Damage::SkipOutsideThenCut,
        Damage::NoMark,
        Damage::HalfMark,
        Damage::OtherMark,
        Damage::SkipBeforeMark,
        Damage::BehindMark,
    ];

    /// The number of refusal.
    pub fn number(self) -> u8 {
        match self {
            Damage::Empty | Damage::CutBetween | Damage::CutInside | Damage::EarlyMark => 24,
            Damage::SkipOutside | Damage::SkipOutsideThenCut => 25,
            _ => 26,
        }
    }
}

/// A frame of this size with this fault.
pub fn damaged(rng: &mut Seeded, size: Size, damage: Damage) -> Vec<u8> {
    let (mut data, ends) = codes(rng, size, Codes::Mix);
    let (last, which) = (ends.len() - 1, rng.below(ends.len()));
    let start = if which == 0 { 0 } else { ends[which - 1] };
    match damage {
        Damage::Empty => data.clear(),
        Damage::CutBetween => data.truncate(start),
        Damage::CutInside => data.truncate(rng.between(start + 1, ends[which] - 1)),
        Damage::EarlyMark => {
            data.truncate(start);
            data.extend(END_MARK);
        }
        Damage::SkipOutside | Damage::SkipOutsideThenCut => {
            skip_outside(rng, size, &mut data, last);
            let behind = rng.below(6);
            match damage {
                Damage::SkipOutside => data.extend(END_MARK),
                _ => data.extend(rng.bytes(behind)),
            }
        }
        Damage::NoMark => {}
        Damage::HalfMark => data.push(0),
        Damage::OtherMark => {
            let mark = rng.pick(&[[0, 1], [1, 0], [0, 0x80], [0x80, 0], [0xFF, 0xFF], [0, 0x85]]);
            data.extend(mark);
        }
        Damage::SkipBeforeMark => {
            data.extend(skip(0));
            data.extend(END_MARK);
        }
        Damage::BehindMark => {
            data.extend(END_MARK);
            let behind = rng.between(1, 4);
            data.extend(if rng.one_in(2) { vec![0; behind] } else { rng.bytes(behind) });
        }
    }
    data
}

/// The last blocks passed by a skip that is too long. A frame of at most [`LONGEST_SKIP`] blocks may be passed
/// whole.
fn skip_outside(rng: &mut Seeded, size: Size, data: &mut Vec<u8>, last: usize) {
    let most = blocks(size).min(LONGEST_SKIP - 1).min(last + 1);
    let passed = blocks(size) - rng.between(1, most);
    data.clear();
    for _ in 0..passed {
        let kind = rng.pick(&[Codes::One, Codes::Two, Codes::Eight]);
        push(rng, data, kind, 1);
    }
    let left = blocks(size) - passed;
    let most = if rng.one_in(2) { left + 1 } else { LONGEST_SKIP };
    data.extend(skip(rng.between(left + 1, most)));
}

/// Any bytes: random ones, or such as most codes have, of about the length of a frame.
pub fn hostile(rng: &mut Seeded, size: Size) -> Vec<u8> {
    let length = rng.below(6 * blocks(size) + 4);
    let mut data = rng.bytes(length);
    match rng.below(3) {
        0 => {}
        1 => data.iter_mut().for_each(|byte| *byte = 0x80 | (*byte & 0x0F)),
        _ => {
            let (first, second) = (rng.byte(), rng.byte());
            data.iter_mut().enumerate().for_each(|(i, byte)| *byte = [first, second][i % 2]);
        }
    }
    if rng.one_in(2) {
        data.extend(END_MARK);
    }
    data
}
