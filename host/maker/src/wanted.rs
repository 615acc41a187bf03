//! Pictures to be encoded (02, W10), each with the two that a player has before it.

use crate::seeded::Seeded;
use crate::size::Size;

/// A wanted picture, and what a player has: front, the one shown, and back, the one that is drawn on. Each
/// may be longer than the size.
#[derive(Clone, Debug, PartialEq, Eq)]
pub struct Wanted {
    /// The size.
    pub size: Size,
    /// The picture that is wanted.
    pub wanted: Vec<u8>,
    /// The picture shown.
    pub front: Vec<u8>,
    /// The picture that is drawn on.
    pub back: Vec<u8>,
}

/// What the pictures look like.
#[derive(Clone, Copy, Debug, PartialEq, Eq)]
pub enum Look {
    /// Pixels of a few colours or of all, by chance.
    Random,
    /// Stripes across or down.
    Striped,
    /// Two colours in turn, others in each block.
    Dithered,
    /// Colours that rise slowly, with a little noise.
    Photographic,
    /// Blocks of each number of colours, in cells of each size.
    Blocks,
    /// A ball that moves before a photographic picture: back, front and wanted are three frames in a row.
    Animated,
}

impl Look {
    /// Every look.
    pub const ALL: [Look; 6] = [
        Look::Random,
        Look::Striped,
        Look::Dithered,
        Look::Photographic,
        Look::Blocks,
        Look::Animated,
    ];

    /// Three pictures of this look. But for the animated ones, front and back get some blocks of the wanted
    /// picture, some with one pixel changed.
    pub fn make(self, rng: &mut Seeded, size: Size) -> Wanted {
        if self == Look::Animated {
            let [back, front, wanted] = frames(rng, size);
            return Wanted { size, wanted, front, back };
        }
        let wanted = self.picture(rng, size);
        let [front, back] = [0, 1].map(|_| {
            let mut picture = self.picture(rng, size);
            for block in 0..size.blocks() {
                if rng.one_in(4) {
                    copy(size, block, &wanted, &mut picture);
                    if rng.one_in(3) {
                        picture[pixel(size, block, rng.below(64))] ^= 1 << rng.below(8);
                    }
                }
            }
            let beyond = rng.below(5);
            picture.extend(rng.bytes(beyond));
            picture
        });
        Wanted { size, wanted, front, back }
    }

    /// One picture of this look.
    pub fn picture(self, rng: &mut Seeded, size: Size) -> Vec<u8> {
        let at = |i: usize| (i % size.width(), i / size.width());
        match self {
            Look::Random => {
                let count = rng.pick(&[1, 2, 3, 4, 16, 256]);
                let colours = rng.bytes(count);
                (0..size.pixels()).map(|_| rng.pick(&colours)).collect()
            }
            Look::Striped => {
                let (width, down, colours) = (rng.between(1, 9), rng.one_in(2), rng.bytes(3));
                let count = rng.between(1, 3);
                let stripe = |(x, y): (usize, usize)| if down { x } else { y } / width % count;
                (0..size.pixels()).map(|i| colours[stripe(at(i))]).collect()
            }
            Look::Dithered => {
                let pairs: Vec<[u8; 2]> =
                    (0..size.blocks()).map(|_| [rng.byte(), rng.byte()]).collect();
                let pair =
                    |(x, y): (usize, usize)| pairs[y / 8 * size.columns + x / 8][(x + y) % 2];
                (0..size.pixels()).map(|i| pair(at(i))).collect()
            }
            Look::Photographic | Look::Animated => {
                let (wide, high) = (rng.between(2, 9), rng.between(2, 9));
                let noise = rng.between(1, 3);
                let shade = |(x, y): (usize, usize)| x / wide + y / high;
                (0..size.pixels()).map(|i| (shade(at(i)) + rng.below(noise)) as u8).collect()
            }
            Look::Blocks => {
                let mut picture = vec![0; size.pixels()];
                for block in 0..size.blocks() {
                    let (side, count) = (rng.pick(&[1, 2, 4, 8]), rng.pick(&[1, 2, 2, 3, 64]));
                    let colours = rng.bytes(count);
                    let cells: Vec<u8> = (0..64).map(|_| rng.pick(&colours)).collect();
                    for i in 0..64 {
                        let cell = i / 8 / side * 8 + i % 8 / side;
                        picture[pixel(size, block, i)] = cells[cell];
                    }
                }
                picture
            }
        }
    }
}

/// Three frames of a ball before a picture that stands still, in the order of time.
fn frames(rng: &mut Seeded, size: Size) -> [Vec<u8>; 3] {
    let still = Look::Photographic.picture(rng, size);
    let (x, y) = (rng.below(size.width()), rng.below(size.height()));
    let (radius, colour) = (rng.between(1, 12), rng.byte());
    let steps = [rng.below(4), rng.below(4)];
    [0, 1, 2].map(|time| {
        let near = |one: usize, other: usize| one.abs_diff(other).pow(2);
        let (x, y) = (x + time * steps[0], y + time * steps[1]);
        let is_ball =
            |i: usize| near(i % size.width(), x) + near(i / size.width(), y) <= radius * radius;
        (0..still.len()).map(|i| if is_ball(i) { colour } else { still[i] }).collect()
    })
}

/// The place of pixel `i` of a block in a picture.
fn pixel(size: Size, block: usize, i: usize) -> usize {
    let (x, y) = size.corner(block);
    (y + i / 8) * size.width() + x + i % 8
}

/// Copies a block.
fn copy(size: Size, block: usize, from: &[u8], to: &mut [u8]) {
    for i in 0..64 {
        let at = pixel(size, block, i);
        to[at] = from[at];
    }
}

/// The data of a wanted picture: so many blocks of 64 bytes and so many of one byte, the others of none.
pub fn with_data(raw: usize, solid: usize) -> Wanted {
    let size = Size::new(32, (raw + solid).div_ceil(32));
    let mut wanted = vec![1; size.pixels()];
    for block in 0..raw + solid {
        for i in 0..64 {
            wanted[pixel(size, block, i)] = if block < raw { i as u8 } else { 200 };
        }
    }
    Wanted { size, wanted, front: vec![1; size.pixels()], back: vec![2; size.pixels()] }
}

#[cfg(test)]
mod tests {
    use super::*;

    /// Every look fills the size; the same seed gives the same pictures.
    #[test]
    fn sizes() {
        for look in Look::ALL {
            let make = || look.make(&mut Seeded::new(5), Size::new(3, 2));
            let made = make();
            assert_eq!(made, make());
            assert_eq!(made.wanted.len(), 384);
            assert!(made.front.len() >= 384 && made.back.len() >= 384);
        }
    }

    /// 64 bytes of the second block's pixels, and 200 of the third.
    #[test]
    fn data() {
        let Wanted { size, wanted, .. } = with_data(2, 1);
        assert_eq!((size.columns, size.rows), (32, 1));
        let at = |block, i| wanted[pixel(size, block, i)];
        assert_eq!([at(1, 0), at(1, 63), at(2, 0), at(2, 63), at(3, 0)], [0, 63, 200, 200, 1]);
    }
}
