//! Films with sound for a chosen stream: opcodes 03, 08 and 09 between those of the pictures (02,
//! W5).

use crate::film::{self, Chunk, Film, Opcode, SOUND};
use crate::film_damage;
use crate::seeded::Seeded;
use crate::size::Size;
use reference::steps::STEPS;

/// A format that opcode 03 can give.
#[derive(Clone, Copy, Debug, PartialEq, Eq, PartialOrd, Ord)]
pub struct Format {
    /// Two channels; else one.
    pub stereo: bool,
    /// 16-bit samples; else 8-bit ones.
    pub wide: bool,
    /// Compressed, which only 16-bit sound can be.
    pub compressed: bool,
}

impl Format {
    /// Every format.
    pub const ALL: [Format; 6] = [
        Format { stereo: false, wide: false, compressed: false },
        Format { stereo: true, wide: false, compressed: false },
        Format { stereo: false, wide: true, compressed: false },
        Format { stereo: true, wide: true, compressed: false },
        Format { stereo: false, wide: true, compressed: true },
        Format { stereo: true, wide: true, compressed: true },
    ];

    /// One or two.
    pub fn channels(self) -> usize {
        1 + usize::from(self.stereo)
    }

    /// Bytes of a sample that is written.
    pub fn sample_bytes(self) -> usize {
        1 + usize::from(self.wide)
    }

    fn flags(self) -> u16 {
        u16::from(self.stereo) | u16::from(self.wide) << 1 | u16::from(self.compressed) << 2
    }
}

/// The sound of one stream while a film is made: what a valid packet must go by.
#[derive(Clone, Copy, Debug)]
pub struct Track {
    /// The stream, 0 to 15.
    pub stream: usize,
    /// The format of the last 03.
    pub format: Option<Format>,
    /// Whether a compressed 08 of the stream has come since then.
    pub begun: bool,
}

impl Track {
    /// A track without a format.
    pub fn new(stream: usize) -> Track {
        assert!(stream < 16, "a mask has 16 bits");
        Track { stream, format: None, begun: false }
    }

    /// Up to two valid opcodes.
    fn some(&mut self, rng: &mut Seeded) -> Vec<Opcode> {
        (0..rng.below(3)).map(|_| self.next(rng)).collect()
    }

    /// A valid opcode of any kind.
    pub fn next(&mut self, rng: &mut Seeded) -> Opcode {
        let is_other = rng.one_in(4);
        match self.format {
            _ if is_other => self.other(rng),
            Some(format) if !rng.one_in(8) => match rng.below(3) {
                0 => self.silence(rng, format),
                _ => self.data(rng, format),
            },
            _ => {
                let format = rng.pick(&Format::ALL);
                self.start(rng, format)
            }
        }
    }

    /// Opcode 03, in either version where the format is in both.
    pub fn start(&mut self, rng: &mut Seeded, format: Format) -> Opcode {
        (self.format, self.begun) = (Some(format), false);
        let version = if format.compressed { 1 } else { rng.below(2) as u8 };
        init_audio(rng, version, format.flags())
    }

    /// Opcode 08 for the stream, of the format of the last 03.
    pub fn data(&mut self, rng: &mut Seeded, format: Format) -> Opcode {
        let start_words = if format.compressed && !self.begun { format.channels() } else { 0 };
        let count = count(rng, 8000, format).max(start_words);
        let data = rng.bytes(self.data_length(format, count));
        self.begun |= format.compressed;
        self.packet(rng, 0x08, count, data)
    }

    /// Opcode 09 for the stream.
    pub fn silence(&self, rng: &mut Seeded, format: Format) -> Opcode {
        let count = count(rng, 0xFFFF, format);
        self.packet(rng, 0x09, count, Vec::new())
    }

    /// Opcode 08 or 09 for other streams or for none. Its count and data are any.
    pub fn other(&self, rng: &mut Seeded) -> Opcode {
        let any = rng.number() as u16;
        let mask = rng.pick(&[0, 0xFFFF, any]) & !(1 << self.stream);
        let (count, length) = (rng.below(0x10000), rng.below(20));
        let data = rng.bytes(length);
        match rng.below(2) {
            0 => packet(rng, 0x08, mask, count, data),
            _ => packet(rng, 0x09, mask, count, Vec::new()),
        }
    }

    /// Opcode 08 or 09 with the stream's bit in its mask.
    pub(crate) fn packet(&self, rng: &mut Seeded, kind: u8, count: usize, data: Vec<u8>) -> Opcode {
        let others = rng.number() as u16;
        let mask = rng.pick(&[0, 0xFFFF, others]) | 1 << self.stream;
        packet(rng, kind, mask, count, data)
    }

    /// Bytes of data of the next 08, which counts no fewer samples than it has start words.
    pub(crate) fn data_length(&self, format: Format, count: usize) -> usize {
        match (format.compressed, self.begun) {
            (false, _) => count * format.sample_bytes(),
            (true, false) => 2 * format.channels() + (count - format.channels()),
            (true, true) => count,
        }
    }
}

/// A number of samples of all channels together: few, none, or any up to a limit.
fn count(rng: &mut Seeded, limit: usize, format: Format) -> usize {
    let count = match rng.below(32) {
        0 => rng.below(limit + 1),
        1 | 2 => 0,
        _ => rng.below(40),
    };
    count - count % format.channels()
}

/// Opcode 03. Bits of the flags that the version has no meaning for are any, like the words that
/// are not read.
pub(crate) fn init_audio(rng: &mut Seeded, version: u8, flags: u16) -> Opcode {
    let unread = if version == 0 { 0xFFFC } else { 0xFFF8 };
    let flags = flags & !unread | rng.number() as u16 & unread;
    let words = [rng.number() as u16, flags, rng.pick(&[8000, 11_025, 22_050, 44_100])];
    let length = 2 + 2 * usize::from(version);
    let body = [words.map(u16::to_le_bytes).concat(), rng.bytes(length)].concat();
    Opcode::new(0x03, version, body)
}

/// Opcode 08 or 09. The index is any.
fn packet(rng: &mut Seeded, kind: u8, mask: u16, count: usize, data: Vec<u8>) -> Opcode {
    let count = u16::try_from(count).expect("a word counts the samples");
    let words = [rng.number() as u16, mask, count].map(u16::to_le_bytes).concat();
    Opcode::new(kind, 0, [words, data].concat())
}

/// A valid film with up to four frames and sound for a stream.
pub fn valid(rng: &mut Seeded, stream: usize) -> Film {
    let frames = rng.below(5);
    with_frames(rng, stream, frames)
}

/// A valid film with so many frames and sound for a stream.
pub fn with_frames(rng: &mut Seeded, stream: usize, frames: usize) -> Film {
    let mut track = Track::new(stream);
    film_of(rng, stream, frames, |rng, _| track.some(rng))
}

/// A film with so many frames. `sound` gives the sound in front of each of their opcodes and behind
/// the last one, and is told how many of them are left.
pub(crate) fn film_of(
    rng: &mut Seeded,
    stream: usize,
    frames: usize,
    mut sound: impl FnMut(&mut Seeded, usize) -> Vec<Opcode>,
) -> Film {
    let (size, mut pictures) = film::pictures(rng, frames);
    silence(&mut pictures);
    let count = pictures.len();
    let mut opcodes = Vec::new();
    for (number, opcode) in pictures.into_iter().enumerate() {
        opcodes.extend(sound(rng, count - number));
        opcodes.push(opcode);
    }
    opcodes.extend(sound(rng, 0));
    let mut film = film::of_opcodes(rng, size, stream, opcodes);
    silence_end(&mut film);
    film
}

/// A chunk that ends the film has an opcode of any type in front, and no sound of the track.
pub(crate) fn silence_end(film: &mut Film) {
    match film.chunks.last_mut() {
        Some(chunk) if chunk.opcodes.last().is_some_and(|opcode| opcode.kind == 0x00) => {
            silence(&mut chunk.opcodes);
        }
        _ => (),
    }
}

/// Gives opcodes of sound with any bytes a type that is passed over whatever the stream.
pub(crate) fn silence(opcodes: &mut [Opcode]) {
    for opcode in opcodes.iter_mut().filter(|opcode| SOUND.contains(&opcode.kind)) {
        opcode.kind = 0x13;
    }
}

/// A valid film with sound for a stream with bytes changed blindly.
pub fn scratched(rng: &mut Seeded, stream: usize) -> Vec<u8> {
    let film = valid(rng, stream);
    film_damage::scratch(rng, film.bytes())
}

/// Films of random opcodes 03, 08 and 09 with small counts and little data, so that some of them fit
/// each other.
pub fn hostile(rng: &mut Seeded) -> Vec<u8> {
    film::hostile_of(rng, |rng| {
        let version = rng.pick(&[0, 0, 0, 0, 0, 1]);
        let any = rng.number() as u16;
        let mask = rng.pick(&[0, 0xFFFF, 0xFFFF, any]);
        let (flags, count, length) = (rng.below(8) as u16, rng.below(5), rng.below(10));
        let data = rng.bytes(length);
        let mut opcode = match rng.below(6) {
            0 | 1 => init_audio(rng, version, flags),
            2 => Opcode { version, ..packet(rng, 0x09, mask, count, Vec::new()) },
            _ => Opcode { version, ..packet(rng, 0x08, mask, count, data) },
        };
        if rng.one_in(16) {
            opcode.body.truncate(rng.below(opcode.body.len() + 1));
        }
        opcode
    })
}

/// A film of so many packets of compressed sound, mono and stereo, each behind a 03 of its own and
/// [`without_wrap`]: libavcodec's decoder takes every packet as a first one, and clips.
pub fn restarted(rng: &mut Seeded, stream: usize, packets: usize) -> Film {
    let mut track = Track::new(stream);
    let mut chunks = Vec::new();
    for _ in 0..packets {
        let stereo = rng.one_in(2);
        let format = Format { stereo, wide: true, compressed: true };
        let count = count(rng, 8000, format).max(format.channels());
        let start = track.start(rng, format);
        let data = without_wrap(rng, format.channels(), count);
        let opcodes = vec![start, track.packet(rng, 0x08, count, data)];
        chunks.push(Chunk { opcodes, ..Chunk::default() });
    }
    Film { size: Size::new(1, 1), stream, chunks, tail: Vec::new() }
}

/// The data of a first compressed 08 with so many samples: start words and steps by which no sum
/// leaves 16 bits, so that it makes no difference whether a decoder wraps around or clips.
pub fn without_wrap(rng: &mut Seeded, channels: usize, count: usize) -> Vec<u8> {
    let mut last: Vec<i16> = (0..channels).map(|_| rng.number() as i16).collect();
    let mut data: Vec<u8> = last.iter().flat_map(|word| word.to_le_bytes()).collect();
    for sample in channels..count {
        let last = &mut last[sample % channels];
        // Step 0 always does.
        let (byte, next) = loop {
            let byte = rng.byte();
            if let Some(next) = last.checked_add(STEPS[usize::from(byte)]) {
                break (byte, next);
            }
        };
        *last = next;
        data.push(byte);
    }
    data
}
