//! Seeded films that libavformat and libavcodec play as the documents say: the chunks of real films
//! (003, "Typical chunk formations"), every form of block, 8-bit or with true colour, palettes by 0C, the odd
//! byte, and sound of stream 0 in every format. docs/PEERS.md lists what these films must not have.

use maker::film::{init_video, packet_opcodes, Chunk, Film, Opcode};
use maker::form::Block;
use maker::packet::Draft;
use maker::sound::{self, Format, Track};
use maker::words::{WordBlock, WordDraft, WordForm, SOLID};
use maker::{Form, Seeded, Size};
use std::collections::BTreeSet;

/// The stream that libavformat plays: it reads no mask.
pub const STREAM: usize = 0;

/// Type of a chunk with the format of the sound (003). The library reads no chunk type, libavformat
/// does.
pub const INIT_AUDIO: u16 = 0;
/// Type of a chunk of sound alone.
pub const AUDIO: u16 = 1;
/// Type of the first chunk, which has the size.
pub const INIT_VIDEO: u16 = 2;
/// Type of a chunk with a picture, and usually with sound.
pub const VIDEO: u16 = 3;
/// Type of a chunk at which libavformat ends the film.
pub const SHUTDOWN: u16 = 4;
/// The other type of that kind.
pub const END: u16 = 5;

/// Data bytes of a picture, so that picture, palettes and sound fit in a chunk.
const PICTURE_BYTES: usize = 36_000;
/// Samples of a channel in a packet; 12,000 bytes at most.
const SAMPLES: usize = 3000;

/// What a pixel is.
#[derive(Clone, Copy, Debug, PartialEq, Eq)]
pub enum Width {
    /// A byte: an 8-bit film.
    Bytes,
    /// A word: a film with true colour.
    Words,
}

/// A film, and what is in it.
#[derive(Clone, Debug)]
pub struct Plain {
    /// The film.
    pub film: Film,
    /// The format of its sound, if it has any.
    pub format: Option<Format>,
    /// The forms of its blocks, where it is 8-bit.
    pub forms: BTreeSet<Form>,
    /// The forms of its blocks, where it has true colour.
    pub word_forms: BTreeSet<WordForm>,
    /// The palette changes, each an opcode 0C.
    pub palettes: usize,
    /// The pictures whose data has a byte left over.
    pub odd: usize,
}

/// The 8-bit film of a case.
pub fn plain(seed: u64, number: u64) -> Plain {
    of(Width::Bytes, seed, number)
}

/// The film of a case. The first two of every seed have the smallest and the largest size.
pub fn of(width: Width, seed: u64, number: u64) -> Plain {
    let rng = &mut Seeded::new(Seeded::new(seed).number().wrapping_add(number));
    let size = match number {
        0 => Size::new(1, 1),
        1 => Size::new(80, 60),
        _ => any_size(rng),
    };
    let format = if rng.one_in(5) { None } else { Some(rng.pick(&Format::ALL)) };
    Maker::new(width, size, format).film(rng)
}

fn any_size(rng: &mut Seeded) -> Size {
    match rng.below(24) {
        0 => Size::new(80, 60),
        1..=3 => Size::any(rng),
        _ => Size::small(rng),
    }
}

/// A film in the making.
struct Maker {
    width: Width,
    size: Size,
    track: Track,
    format: Option<Format>,
    /// Pictures so far.
    pictures: usize,
    chunks: Vec<Chunk>,
    forms: BTreeSet<Form>,
    word_forms: BTreeSet<WordForm>,
    palettes: usize,
    odd: usize,
}

impl Maker {
    fn new(width: Width, size: Size, format: Option<Format>) -> Maker {
        Maker {
            width,
            size,
            track: Track::new(STREAM),
            format,
            pictures: 0,
            chunks: Vec::new(),
            forms: BTreeSet::new(),
            word_forms: BTreeSet::new(),
            palettes: 0,
            odd: 0,
        }
    }

    fn film(mut self, rng: &mut Seeded) -> Plain {
        self.opening(rng);
        let pictures =
            if self.size.blocks() > 100 { rng.between(3, 8) } else { rng.between(3, 40) };
        for _ in 0..pictures {
            self.picture_chunk(rng);
            if rng.one_in(4) {
                self.other_chunk(rng);
            }
        }
        let tail = self.end(rng);
        let Maker { size, format, chunks, forms, word_forms, palettes, odd, .. } = self;
        let film = Film { size, stream: STREAM, chunks, tail };
        Plain { film, format, forms, word_forms, palettes, odd }
    }

    /// Size and palette, then the format of the sound. libavformat opens a film only if its first
    /// chunk is of type 2 and its second of type 0 or 3; the format may come later, too.
    fn opening(&mut self, rng: &mut Seeded) {
        let mut opcodes = vec![match self.width {
            Width::Bytes => init_video(self.size),
            Width::Words => init_words(rng, self.size),
        }];
        let at = rng.below(2);
        opcodes.splice(at..at, self.some_palettes(rng, 2));
        self.close(rng, INIT_VIDEO, opcodes);
        match self.format {
            Some(format) if !rng.one_in(4) => {
                let start = self.track.start(rng, format);
                self.close(rng, INIT_AUDIO, vec![start]);
            }
            _ => (),
        }
    }

    /// A chunk with a picture that is sent, palettes in front of the sending, and sound anywhere.
    fn picture_chunk(&mut self, rng: &mut Seeded) {
        let mut opcodes = self.some_palettes(rng, 1);
        if rng.one_in(2) {
            opcodes.push(timer(rng));
        }
        let [map, video] = self.picture(rng);
        opcodes.push(map);
        opcodes.extend(passed_over(rng));
        opcodes.push(video);
        opcodes.extend(self.some_palettes(rng, 1));
        opcodes.push(send(rng));
        if rng.one_in(2) {
            let at = rng.below(opcodes.len() + 1);
            opcodes.splice(at..at, self.sound(rng));
        }
        self.close(rng, VIDEO, opcodes);
    }

    /// A chunk between two pictures: of sound, with a palette, or empty.
    fn other_chunk(&mut self, rng: &mut Seeded) {
        let (kind, opcodes) = match rng.below(4) {
            0 => (INIT_VIDEO, self.some_palettes(rng, 2)),
            1 => (VIDEO, Vec::new()),
            _ => (AUDIO, self.sound(rng)),
        };
        self.close(rng, kind, opcodes);
    }

    /// Adds a chunk, with opcodes that both pass over, and usually with opcode 01 at its end.
    fn close(&mut self, rng: &mut Seeded, kind: u16, mut opcodes: Vec<Opcode>) {
        opcodes.extend(passed_over(rng));
        if !rng.one_in(4) {
            opcodes.push(Opcode::new(0x01, 0, Vec::new()));
        }
        self.chunks.push(Chunk { kind, opcodes, ..Chunk::default() });
    }

    /// Ends the film by 00 or by its length, by a chunk of either type that libavformat takes for
    /// the end. Gives the bytes behind it, which nobody reads.
    fn end(&mut self, rng: &mut Seeded) -> Vec<u8> {
        let chunk = |kind, opcodes| Chunk { kind, opcodes, ..Chunk::default() };
        if rng.one_in(4) {
            self.chunks.extend([chunk(SHUTDOWN, Vec::new()), chunk(END, Vec::new())]);
            return Vec::new();
        }
        let kind = rng.pick(&[SHUTDOWN, END]);
        self.chunks.push(chunk(kind, vec![Opcode::new(0x00, 0, Vec::new())]));
        let length = rng.below(9);
        rng.bytes(length)
    }

    /// The opcodes 0F and 11 of the next picture, one in three with a byte left over.
    fn picture(&mut self, rng: &mut Seeded) -> [Opcode; 2] {
        let mut packet = match self.width {
            Width::Bytes => {
                let of = forms(rng, self.pictures);
                let draft = draft(rng, self.size, &of);
                let forms = draft.blocks.iter().map(|block| Form::of(block.code, &block.data));
                self.forms.extend(forms.flatten());
                draft.packet()
            }
            Width::Words => {
                let of = word_forms(rng, self.pictures);
                let draft = word_draft(rng, self.size, &of);
                let forms = draft.blocks.iter().map(|block| WordForm::of(block.code, &block.first));
                self.word_forms.extend(forms.flatten());
                draft.packet()
            }
        };
        self.pictures += 1;
        if rng.one_in(3) {
            packet.data.push(rng.byte());
            self.odd += 1;
        }
        packet_opcodes(rng, packet)
    }

    /// Up to so many palette changes, each of few entries, of none or of all.
    fn some_palettes(&mut self, rng: &mut Seeded, most: usize) -> Vec<Opcode> {
        let count = if rng.one_in(2) { 0 } else { rng.between(1, most) };
        self.palettes += count;
        (0..count).map(|_| palette(rng)).collect()
    }

    /// One 08 of the stream and now and then a 09 of the others; nothing in a silent film. A 03 is in
    /// front where none was or the sound is compressed, and now and then elsewhere.
    fn sound(&mut self, rng: &mut Seeded) -> Vec<Opcode> {
        let Some(format) = self.format else { return Vec::new() };
        let mut opcodes = Vec::new();
        if self.track.format.is_none() || format.compressed || rng.one_in(8) {
            opcodes.push(self.track.start(rng, format));
        }
        let most = if rng.one_in(4) { SAMPLES } else { 40 };
        let count = format.channels() * rng.between(1, most);
        let data = match format.compressed {
            true => sound::without_wrap(rng, format.channels(), count),
            false => rng.bytes(count * format.sample_bytes()),
        };
        let mask = rng.number() as u16 | 1 << STREAM;
        opcodes.push(audio(rng, 0x08, mask, count, data));
        if rng.one_in(2) {
            opcodes.push(audio(rng, 0x09, !mask, count, Vec::new()));
        }
        opcodes
    }
}

/// The forms for the blocks of a picture, all that are fit or some of them. libavcodec has nothing to
/// copy from where a film has not as many pictures yet.
fn forms(rng: &mut Seeded, pictures: usize) -> Vec<Form> {
    let is_fit = |form: &Form| match form.code() {
        0 | 4 | 5 => pictures >= 1,
        1 | 2 => pictures >= 2,
        _ => true,
    };
    let fit: Vec<Form> = Form::ALL.into_iter().filter(is_fit).collect();
    let of_codes = |low, high| {
        let of = fit.iter().filter(|form| (low..=high).contains(&form.code()));
        of.copied().collect()
    };
    match rng.below(8) {
        0 => vec![rng.pick(&fit)],
        1 => of_codes(0x0, 0x5),
        2 => of_codes(0x7, 0xA),
        _ => fit,
    }
}

/// Blocks of these forms. A solid block stands where a copy has no vector, and where the data would
/// be longer than this part of the picture may have.
fn draft(rng: &mut Seeded, size: Size, of: &[Form]) -> Draft {
    let mut used = 0;
    let blocks = (0..size.blocks()).map(|number| {
        let room = PICTURE_BYTES * (number + 1) / size.blocks() - used;
        let block = rng.pick(of).block(rng, size, number);
        let block = block
            .filter(|block| block.data.len() <= room)
            .unwrap_or_else(|| Block { code: Form::Solid.code(), data: rng.bytes(1) });
        used += block.data.len();
        block
    });
    let blocks = blocks.collect();
    Draft { size, blocks, spare: rng.byte() & 0x0F, over: Vec::new() }
}

/// Opcode 05 of a film with true colour: version 2, and a word that is not 0.
fn init_words(rng: &mut Seeded, size: Size) -> Opcode {
    let far = rng.between(1, 0xFFFF) as u16;
    let word = rng.pick(&[1, 1, 0x0100, far]);
    let words = [size.columns as u16, size.rows as u16, rng.number() as u16, word];
    Opcode::new(0x05, 2, words.map(u16::to_le_bytes).concat())
}

/// The forms for the blocks of a picture with true colour, likewise.
fn word_forms(rng: &mut Seeded, pictures: usize) -> Vec<WordForm> {
    let is_fit = |form: &WordForm| match form.code {
        0x0 | 0x4 | 0x5 => pictures >= 1,
        0x1 | 0x2 | 0x6 | 0xF => pictures >= 2,
        _ => true,
    };
    let fit: Vec<WordForm> = WordForm::ALL.into_iter().filter(is_fit).collect();
    let of_codes = |low, high| {
        let of = fit.iter().filter(|form| (low..=high).contains(&form.code));
        of.copied().collect()
    };
    match rng.below(8) {
        0 => vec![rng.pick(&fit)],
        1 => of_codes(0x0, 0x6),
        2 => of_codes(0x7, 0xA),
        _ => fit,
    }
}

/// Blocks of these forms; solid ones as in [`draft`], counted by the bytes of the first part.
fn word_draft(rng: &mut Seeded, size: Size, of: &[WordForm]) -> WordDraft {
    let mut used = 0;
    let blocks = (0..size.blocks()).map(|number| {
        let room = PICTURE_BYTES * (number + 1) / size.blocks() - used;
        let block = rng.pick(of).block(rng, size, number);
        let block: WordBlock = block
            .filter(|block| block.first.len() + block.second.len() <= room)
            .or_else(|| SOLID.block(rng, size, number))
            .expect("a solid block has no vector");
        used += block.first.len() + block.second.len();
        block
    });
    let blocks = blocks.collect();
    WordDraft { size, blocks, spare: rng.byte() & 0x0F, over: Vec::new() }
}

/// Opcode 0C.
fn palette(rng: &mut Seeded) -> Opcode {
    let (start, count) = match rng.below(6) {
        0 => (rng.below(256), 0),
        1 => (0, 256),
        _ => {
            let start = rng.below(256);
            (start, rng.between(1, (256 - start).min(40)))
        }
    };
    let words = [start as u16, count as u16].map(u16::to_le_bytes).concat();
    let components = (0..3 * count).map(|_| rng.byte() % 64).collect();
    Opcode::new(0x0C, 0, [words, components].concat())
}

/// Opcode 02, which the player core passes over. libavformat takes it in this form alone.
fn timer(rng: &mut Seeded) -> Opcode {
    let (rate, subdivision) = (rng.between(1, 20_000) as u32, rng.between(1, 8) as u16);
    Opcode::new(0x02, 0, [&rate.to_le_bytes()[..], &subdivision.to_le_bytes()].concat())
}

/// Up to two opcodes that both pass over, in any version and length.
fn passed_over(rng: &mut Seeded) -> Vec<Opcode> {
    let count = rng.below(4).saturating_sub(1);
    let opcode = |_| {
        let (kind, length) = (rng.pick(&[0x04, 0x0A, 0x12, 0x13, 0x14, 0x15]), rng.below(24));
        Opcode::new(kind, rng.byte(), rng.bytes(length))
    };
    (0..count).map(opcode).collect()
}

/// Opcode 07 in either version. Its words are not read.
fn send(rng: &mut Seeded) -> Opcode {
    let version = rng.below(2);
    Opcode::new(0x07, version as u8, rng.bytes(4 + 2 * version))
}

/// Opcode 08 or 09. The index is any.
fn audio(rng: &mut Seeded, kind: u8, mask: u16, count: usize, data: Vec<u8>) -> Opcode {
    let count = u16::try_from(count).expect("a word counts the samples");
    let words = [rng.number() as u16, mask, count].map(u16::to_le_bytes).concat();
    Opcode::new(kind, 0, [words, data].concat())
}
