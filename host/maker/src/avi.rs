//! AVI files with frames of 8-bit Microsoft Video 1 (source document 001), a palette that may change, and
//! uncompressed sound: what `mve import` reads. Frames are made together with the picture that they give.

use crate::seeded::Seeded;

/// Width and height of a block of a frame.
const SIDE: usize = 4;
/// The most blocks that one code skips.
const MOST_SKIPPED: usize = 1023;
/// The second bytes of a block of one colour.
const ONE_COLOUR: [u8; 12] =
    [0x80, 0x81, 0x82, 0x83, 0x88, 0x89, 0x8A, 0x8B, 0x8C, 0x8D, 0x8E, 0x8F];

/// An AVI file as its maker keeps it.
#[derive(Clone, Debug)]
pub struct Avi {
    /// In pixels, a multiple of 4.
    pub width: usize,
    /// Likewise.
    pub height: usize,
    /// Frames a second: this over [`Avi::scale`].
    pub rate: u32,
    /// See [`Avi::rate`].
    pub scale: u32,
    /// The name of the codec.
    pub codec: [u8; 4],
    /// Of a pixel.
    pub bits: u16,
    /// Red, green and blue of the entries at first.
    pub palette: Vec<[u8; 3]>,
    /// The formats of its sounds; [`Item::Samples`] are of the first.
    pub sounds: Vec<Sound>,
    /// What the file has, in its order.
    pub items: Vec<Item>,
}

/// The format of the sound.
#[derive(Clone, Copy, Debug, PartialEq, Eq)]
pub struct Sound {
    /// 1 for samples as they are.
    pub kind: u16,
    /// Samples of a channel in a second.
    pub rate: u32,
    /// One or two.
    pub channels: u16,
    /// Of a sample.
    pub bits: u16,
}

/// A part of the file.
#[derive(Clone, Debug, PartialEq, Eq)]
pub enum Item {
    /// The data of a frame.
    Frame(Vec<u8>),
    /// Other colours from an entry on.
    Colours(u8, Vec<[u8; 3]>),
    /// Sound.
    Samples(Vec<u8>),
    /// Parts that stand in a list of their own.
    Record(Vec<Item>),
    /// A chunk of this name that is passed over.
    Other([u8; 4], Vec<u8>),
}

impl Avi {
    /// A silent file of this size, at 15 frames a second, with a palette of greys.
    pub fn new(width: usize, height: usize) -> Avi {
        Avi {
            width,
            height,
            rate: 15,
            scale: 1,
            codec: *b"CRAM",
            bits: 8,
            palette: (0..=255).map(|grey| [grey; 3]).collect(),
            sounds: Vec::new(),
            items: Vec::new(),
        }
    }

    /// The bytes of the file.
    pub fn bytes(&self) -> Vec<u8> {
        let mut movie = b"movi".to_vec();
        let mut index = Vec::new();
        self.items.iter().for_each(|item| item.write(&mut movie, &mut index));
        let parts = [self.header(), chunk(b"LIST", &movie), chunk(b"idx1", &index)].concat();
        chunk(b"RIFF", &[&b"AVI "[..], &parts].concat())
    }

    fn header(&self) -> Vec<u8> {
        let microseconds = (1_000_000 * u64::from(self.scale)).checked_div(self.rate.into());
        let size = [self.width as u32, self.height as u32];
        let streams = 1 + self.sounds.len() as u32;
        let flags = 0x110; // has an index, is interleaved
        let frames = self.count(&|item| usize::from(matches!(item, Item::Frame(_)))) as u32;
        let front = [microseconds.unwrap_or(0) as u32, 0, 0, flags, frames, 0, streams, 0];
        let main = chunk(b"avih", &doubles(&[&front[..], &size, &[0; 4]].concat()));
        let sound: Vec<u8> =
            self.sounds.iter().flat_map(|&sound| self.sound_header(sound)).collect();
        let all = [&b"hdrl"[..], &main, &self.picture_header(frames), &sound].concat();
        chunk(b"LIST", &all)
    }

    fn picture_header(&self, frames: u32) -> Vec<u8> {
        let changes = 0x10000; // the palette may change
        let numbers = [changes, 0, 0, self.scale, self.rate, 0, frames, 0, u32::MAX, 0];
        let frame = [0, 0, self.width as u16, self.height as u16].map(u16::to_le_bytes).concat();
        let header = [&b"vidsmsvc"[..], &doubles(&numbers), &frame].concat();
        let size = [40, self.width as u32, self.height as u32];
        let planes = [1, self.bits].map(u16::to_le_bytes).concat();
        let rest = [0, 0, 0, self.palette.len() as u32, 0];
        let palette = self.palette.iter().flat_map(|&[red, green, blue]| [blue, green, red, 0]);
        let palette: Vec<u8> = palette.collect();
        let format =
            [&doubles(&size), &planes[..], &self.codec, &doubles(&rest), &palette].concat();
        stream(&header, &format)
    }

    fn sound_header(&self, Sound { kind, rate, channels, bits }: Sound) -> Vec<u8> {
        let frame = channels * bits.div_ceil(8);
        let second = rate * u32::from(frame);
        let bytes = self.count(&|item| match item {
            Item::Samples(samples) => samples.len(),
            _ => 0,
        });
        let count = (bytes / usize::from(frame).max(1)) as u32;
        let numbers = [0, 0, 0, u32::from(frame), second, 0, count, 0, u32::MAX, u32::from(frame)];
        let header = [&b"auds\0\0\0\0"[..], &doubles(&numbers), &[0; 8]].concat();
        let front = [kind, channels].map(u16::to_le_bytes).concat();
        let behind = [frame, bits].map(u16::to_le_bytes).concat();
        stream(&header, &[&front[..], &doubles(&[rate, second]), &behind].concat())
    }

    /// The sum over all parts, also those in lists.
    fn count(&self, of: &dyn Fn(&Item) -> usize) -> usize {
        self.items.iter().map(|item| item.count(of)).sum()
    }
}

impl Item {
    fn count(&self, of: &dyn Fn(&Item) -> usize) -> usize {
        match self {
            Item::Record(items) => items.iter().map(|item| item.count(of)).sum(),
            item => of(item),
        }
    }

    /// Writes it to the movie, and its place to the index.
    fn write(&self, movie: &mut Vec<u8>, index: &mut Vec<u8>) {
        let (name, content, flags) = match self {
            Item::Record(items) => {
                let mut inner = b"rec ".to_vec();
                items.iter().for_each(|item| item.write(&mut inner, &mut Vec::new()));
                return movie.extend(chunk(b"LIST", &inner));
            }
            Item::Other(name, content) => return movie.extend(chunk(name, content)),
            Item::Frame(data) => (b"00dc", data.clone(), 0x10), // may be begun with
            Item::Colours(first, colours) => (b"00pc", change(*first, colours), 0x100), // no time
            Item::Samples(samples) => (b"01wb", samples.clone(), 0x10),
        };
        index.extend(name);
        index.extend(doubles(&[flags, movie.len() as u32, content.len() as u32]));
        movie.extend(chunk(name, &content));
    }
}

/// A change of the palette: first entry, count (0 for 256), flags; then red, green, blue and a spare byte.
fn change(first: u8, colours: &[[u8; 3]]) -> Vec<u8> {
    let colours = colours.iter();
    let mut content = vec![first, colours.len() as u8, 0, 0];
    content.extend(colours.flat_map(|&[red, green, blue]| [red, green, blue, 0]));
    content
}

fn stream(header: &[u8], format: &[u8]) -> Vec<u8> {
    let parts = [&b"strl"[..], &chunk(b"strh", header), &chunk(b"strf", format)].concat();
    chunk(b"LIST", &parts)
}

/// A chunk, padded to an even length.
pub fn chunk(name: &[u8; 4], content: &[u8]) -> Vec<u8> {
    let mut chunk = [&name[..], &(content.len() as u32).to_le_bytes(), content].concat();
    chunk.resize(chunk.len() + content.len() % 2, 0);
    chunk
}

fn doubles(numbers: &[u32]) -> Vec<u8> {
    numbers.iter().flat_map(|number| number.to_le_bytes()).collect()
}

/// A frame of all kinds of codes, and the picture that it makes of the one before it: an entry for each of
/// `width` by `height` pixels, which are multiples of 4, the top row first.
pub fn frame(rng: &mut Seeded, width: usize, height: usize, picture: &mut [u8]) -> Vec<u8> {
    let mut frame = Drawn { width, height, picture, data: Vec::new() };
    let (mut block, blocks) = (0, width / SIDE * (height / SIDE));
    while block < blocks {
        let left = blocks - block;
        match rng.below(5) {
            0 => {
                let most = if rng.one_in(2) { 9 } else { MOST_SKIPPED };
                let count = rng.between(1, most.min(left));
                frame.data.extend([count as u8, 0x84 + (count >> 8) as u8]);
                block += count;
            }
            kind => {
                frame.draw(rng, block, kind);
                block += 1;
            }
        }
    }
    frame.data.extend([0, 0]);
    frame.data
}

struct Drawn<'a> {
    width: usize,
    height: usize,
    picture: &'a mut [u8],
    data: Vec<u8>,
}

impl Drawn<'_> {
    /// A block of one, two or eight colours.
    fn draw(&mut self, rng: &mut Seeded, block: usize, kind: usize) {
        let (a, b) = (rng.byte(), rng.byte());
        match kind {
            1 => {
                self.data.extend([a, rng.pick(&ONE_COLOUR)]);
                self.paint(block, |_, _| a);
            }
            2 => {
                let (b, colours) = (b & 0x7F, [rng.byte(), rng.byte()]);
                self.data.extend([a, b, colours[0], colours[1]]);
                self.paint(block, |row, column| colours[flag(a, b, row, column)]);
            }
            _ => {
                let (b, colours) = (b | 0x90, rng.bytes(8));
                self.data.extend([a, b]);
                self.data.extend(&colours);
                // Two colours for each quad: lower left, lower right, upper left, upper right.
                let quad = |row: usize, column: usize| 2 * (row / 2 * 2 + column / 2);
                self.paint(block, |row, column| {
                    colours[quad(row, column) + flag(a, b, row, column)]
                });
            }
        }
    }

    /// Blocks and the rows in them are counted from the bottom.
    fn paint(&mut self, block: usize, colour: impl Fn(usize, usize) -> u8) {
        let across = self.width / SIDE;
        for pixel in 0..SIDE * SIDE {
            let (row, column) = (pixel / SIDE, pixel % SIDE);
            let y = self.height - 1 - (block / across * SIDE + row);
            let x = block % across * SIDE + column;
            self.picture[y * self.width + x] = colour(row, column);
        }
    }
}

/// Which colour of a pair a pixel has: a bit that is 1 is the first.
fn flag(a: u8, b: u8, row: usize, column: usize) -> usize {
    let flags = u16::from_le_bytes([a, b]);
    1 - usize::from(flags >> (SIDE * row + column) & 1)
}
