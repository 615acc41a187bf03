//! Packets: the map and the data of one frame.

use crate::form::{Block, Form};
use crate::seeded::Seeded;
use crate::size::Size;
use std::ops::Range;

/// A packet as it is given to checking and drawing.
#[derive(Clone, Debug, PartialEq, Eq)]
pub struct Packet {
    /// Blocks in a row of the frame; damage may make it any number below 65,536.
    pub columns: usize,
    /// Rows of blocks, likewise.
    pub rows: usize,
    /// One nibble a block.
    pub map: Vec<u8>,
    /// The blocks' data.
    pub data: Vec<u8>,
}

impl Packet {
    /// Pixels of the frame, legal or not.
    pub fn pixels(&self) -> usize {
        Size::new(self.columns, self.rows).pixels()
    }
}

/// Which blocks a packet is made of.
#[derive(Clone, Copy, Debug, PartialEq, Eq)]
pub enum Profile {
    /// Every form.
    Mixed,
    /// Codes 0 and 2 to 5.
    Copies,
    /// Codes 2 and 3 with solid blocks between: frames that read what they overwrite.
    BackCopies,
    /// Codes 7 to A.
    Patterns,
    /// Codes B to F.
    Raw,
    /// Codes with at most two data bytes, so that the largest frame fits an opcode.
    Light,
    /// Code 1 with a few other blocks.
    Sparse,
    /// One form; a solid block where it is a copy that has no vector.
    Only(Form),
}

impl Profile {
    /// The profiles of more than one form.
    pub const MANY: [Profile; 7] = [
        Profile::Mixed,
        Profile::Copies,
        Profile::BackCopies,
        Profile::Patterns,
        Profile::Raw,
        Profile::Light,
        Profile::Sparse,
    ];

    fn form(self, rng: &mut Seeded) -> Form {
        let of = match self {
            Profile::Mixed => &Form::ALL[..],
            Profile::Copies => &[
                Form::SameBlock,
                Form::BackAhead,
                Form::BackBehind,
                Form::FrontNear,
                Form::FrontFar,
            ],
            Profile::BackCopies => &[Form::BackAhead, Form::BackBehind, Form::Solid],
            Profile::Patterns => &Form::ALL[6..18],
            Profile::Raw => &Form::ALL[18..],
            Profile::Light => &[
                Form::SameBlock,
                Form::Untouched,
                Form::BackAhead,
                Form::BackBehind,
                Form::FrontNear,
                Form::FrontFar,
                Form::Solid,
                Form::Dithered,
            ],
            Profile::Sparse if rng.one_in(8) => &Form::ALL[..],
            Profile::Sparse => &[Form::Untouched],
            Profile::Only(form) => return form,
        };
        rng.pick(of)
    }
}

/// The part of a frame outside which no block is touched (02, W2).
#[derive(Clone, Copy, Debug, PartialEq, Eq)]
pub enum Strip {
    /// No block: every one is code 1.
    Nothing,
    /// The first row of blocks.
    FirstRow,
    /// The last row.
    LastRow,
    /// Some rows.
    Rows,
    /// One block.
    OneBlock,
}

impl Strip {
    /// Every kind.
    pub const ALL: [Strip; 5] =
        [Strip::Nothing, Strip::FirstRow, Strip::LastRow, Strip::Rows, Strip::OneBlock];

    /// The numbers of its blocks.
    fn numbers(self, rng: &mut Seeded, size: Size) -> Range<usize> {
        let Size { columns, rows } = size;
        match self {
            Strip::Nothing => 0..0,
            Strip::FirstRow => 0..columns,
            Strip::LastRow => size.blocks() - columns..size.blocks(),
            Strip::Rows => {
                let first = rng.below(rows);
                let last = rng.between(first, rows - 1);
                columns * first..columns * (last + 1)
            }
            Strip::OneBlock => {
                let number = rng.below(size.blocks());
                number..number + 1
            }
        }
    }
}

/// A packet as its maker keeps it, block by block.
#[derive(Clone, Debug)]
pub struct Draft {
    /// The frame size.
    pub size: Size,
    /// The blocks, left to right, then down.
    pub blocks: Vec<Block>,
    /// The nibble behind the last block where their number is odd. It is not read.
    pub spare: u8,
    /// Bytes left over behind the last block's data. One is not read, more are not taken (02, W6).
    pub over: Vec<u8>,
}

impl Draft {
    /// A valid packet with nothing left over.
    pub fn make(rng: &mut Seeded, size: Size, profile: Profile) -> Draft {
        let blocks = (0..size.blocks()).map(|number| {
            let form = profile.form(rng);
            form.block(rng, size, number)
                .unwrap_or_else(|| Block { code: Form::Solid.code(), data: rng.bytes(1) })
        });
        let blocks = blocks.collect();
        Draft { size, blocks, spare: rng.byte() & 0x0F, over: Vec::new() }
    }

    /// As [`Draft::make`], but the last block has this form. `None` where that is a copy that has no
    /// vector there; code 2 has none in any frame, since it copies from later blocks.
    pub fn ending_in(rng: &mut Seeded, size: Size, profile: Profile, last: Form) -> Option<Draft> {
        let mut draft = Draft::make(rng, size, profile);
        *draft.blocks.last_mut()? = last.block(rng, size, size.blocks() - 1)?;
        Some(draft)
    }

    /// The same, one time in three with few rows touched: the blocks elsewhere are left as they are.
    pub fn or_strip(self, rng: &mut Seeded) -> Draft {
        if !rng.one_in(3) {
            return self;
        }
        let strip = rng.pick(&Strip::ALL);
        self.strip(rng, strip)
    }

    /// The same with this strip touched alone; now and then by blocks of code 0 alone.
    pub fn strip(mut self, rng: &mut Seeded, strip: Strip) -> Draft {
        let numbers = strip.numbers(rng, self.size);
        let same = rng.one_in(4);
        for (number, block) in self.blocks.iter_mut().enumerate() {
            if !numbers.contains(&number) {
                *block = Block { code: Form::Untouched.code(), data: Vec::new() };
            } else if same {
                *block = Block { code: Form::SameBlock.code(), data: Vec::new() };
            }
        }
        self
    }

    /// The same with so many bytes left over.
    pub fn with_over(self, rng: &mut Seeded, count: usize) -> Draft {
        Draft { over: rng.bytes(count), ..self }
    }

    /// The same, one time in three with a byte left over, as films have that pad their packets.
    pub fn or_padded(self, rng: &mut Seeded) -> Draft {
        let count = usize::from(rng.one_in(3));
        self.with_over(rng, count)
    }

    /// Bytes of the blocks' data.
    pub fn data_length(&self) -> usize {
        self.blocks.iter().map(|block| block.data.len()).sum()
    }

    /// Stores that drawing the blocks from `place` on makes: 65 each, 1 for code 1 (01).
    pub fn stores_from(&self, place: usize) -> usize {
        self.blocks[place..].iter().map(stores_of).sum()
    }

    /// The place after drawing on from `place` with so many stores.
    pub fn place_after(&self, place: usize, allowed: usize) -> usize {
        let mut left = allowed;
        let finished = self.blocks[place..].iter().take_while(|block| {
            let enough = left >= stores_of(block);
            left = left.saturating_sub(stores_of(block));
            enough
        });
        place + finished.count()
    }

    /// The bytes.
    pub fn packet(&self) -> Packet {
        let mut codes: Vec<u8> = self.blocks.iter().map(|block| block.code).collect();
        codes.push(self.spare);
        let data = self.blocks.iter().flat_map(|block| &block.data).chain(&self.over);
        Packet {
            columns: self.size.columns,
            rows: self.size.rows,
            map: codes.chunks_exact(2).map(|pair| pair[0] | pair[1] << 4).collect(),
            data: data.copied().collect(),
        }
    }
}

fn stores_of(block: &Block) -> usize {
    if block.code == Form::Untouched.code() {
        1
    } else {
        65
    }
}

/// A valid packet of a few blocks, of any profile, of all rows or a strip, padded or not.
pub fn small(rng: &mut Seeded) -> Draft {
    let size = Size::small(rng);
    let profile = rng.pick(&Profile::MANY);
    Draft::make(rng, size, profile).or_strip(rng).or_padded(rng)
}

/// Bytes without meaning in the shape of a packet: mostly of a legal size with the right map
/// length, so that checking goes on to the blocks.
pub fn hostile(rng: &mut Seeded) -> Packet {
    let size = Size::small(rng);
    let legal = !rng.one_in(8);
    let (columns, rows) =
        if legal { (size.columns, size.rows) } else { (rng.below(100), rng.below(80)) };
    let map_length = if rng.one_in(8) { rng.below(40) } else { size.blocks().div_ceil(2) };
    let data_length = rng.below(size.blocks() * 20 + 2);
    Packet { columns, rows, map: rng.bytes(map_length), data: rng.bytes(data_length) }
}
