//! Writing a film: pictures by the library's encoder, colours, times and sound, in chunks that other
//! players take, too (docs/PEERS.md).

use crate::input::Pcm;
use crate::listing;
use crate::messages::Failure;
use crate::opcodes::kind;
use crate::output::{Overwrite, Part};
use crate::sound::Format;
use mve::Error;
use serde_json::{json, Value};
use std::fs::File;
use std::io::{BufWriter, Write};
use std::path::Path;

const HEADER: &[u8; 26] = b"Interplay MVE File\x1A\0\x1A\0\0\x01\x33\x11";

/// Types of chunks.
mod chunk {
    pub const SOUND_FORMAT: u16 = 0;
    pub const SOUND: u16 = 1;
    pub const FIRST: u16 = 2;
    pub const PICTURE: u16 = 3;
    pub const SHUTDOWN: u16 = 4;
    pub const LAST: u16 = 5;
}

/// The length of a chunk is one word, without its head.
const LONGEST_CHUNK: usize = u16::MAX as usize;
/// Opcode 0x01, which ends each chunk but the last.
const END_OF_CHUNK: [u8; 4] = [0, 0, kind::CHUNK_END, 0];
/// Opcodes 0x04, which starts the sound in old players, and 0x07, which sends the picture.
const SEND: [u8; 12] = [0, 0, kind::START_SOUND, 0, 4, 0, kind::SEND, 0, 0, 0, 0, 0];
/// The most bytes that the body of opcode 0x11 has, so that its chunk has the 0x07, too: libavformat
/// sends no picture by a 0x07 in a later chunk. The library's own limit is 16 bytes above.
pub const LONGEST_BODY: usize = LONGEST_CHUNK - 4 - SEND.len() - END_OF_CHUNK.len();
/// The byte of that body whose bit 0 tells GemRB and D2X-Rebirth to swap their pictures.
const SWAP_BYTE: usize = 12;
/// The bytes of sound in an opcode: whole samples of every format, and not too many for a chunk.
const SOUND_BYTES: usize = 60_000;
/// The streams of a film's sound, a bit each: the first has it, the others are silent.
const FIRST_STREAM: u16 = 1;

/// Why a picture is not added.
#[derive(Debug)]
pub enum Unadded {
    /// By the library.
    Refused(Error),
    Failed(Failure),
}

impl From<Failure> for Unadded {
    fn from(failure: Failure) -> Unadded {
        Unadded::Failed(failure)
    }
}

/// A film that is being written.
pub struct FilmWriter {
    part: Part,
    file: BufWriter<File>,
    /// Of the file so far.
    bytes: usize,
    /// Of the pictures as they are given, in pixels.
    width: usize,
    height: usize,
    pub columns: usize,
    pub rows: usize,
    /// The last picture that was added and the one before it.
    front: Vec<u8>,
    back: Vec<u8>,
    pub pictures: usize,
    /// What is written, and what the next picture is to have.
    palette: Vec<[u8; 3]>,
    wanted_palette: Vec<[u8; 3]>,
    interval: Option<u32>,
    /// The microseconds of all pictures so far.
    elapsed: u64,
    sound: Option<Pcm>,
    /// The bytes of it that are written, and the opcodes.
    sound_bytes: usize,
    sound_opcodes: u16,
    /// Rooms that the library writes to.
    map: Vec<u8>,
    body: Vec<u8>,
}

/// What there is to tell of a film that was written.
#[derive(Clone, Debug)]
pub struct Written {
    bytes: usize,
    /// Of the pictures as they were given, in pixels.
    width: usize,
    height: usize,
    columns: usize,
    rows: usize,
    pictures: usize,
    /// Microseconds.
    elapsed: u64,
    sound: Option<Heard>,
}

/// Sound that was written, in bytes.
#[derive(Clone, Debug)]
struct Heard {
    format: Format,
    bytes: usize,
    /// What is longer than the pictures.
    left_out: usize,
}

/// What is kept together in a chunk.
struct Group {
    opcodes: Vec<u8>,
    is_sound: bool,
}

impl FilmWriter {
    /// Begins a film of pictures of this size, which are padded to whole blocks.
    pub fn begin(
        target: &Path,
        (width, height): (usize, usize),
        sound: Option<Pcm>,
    ) -> Result<FilmWriter, Failure> {
        let (part, file) = Part::file(target)?;
        let (columns, rows) = (width.div_ceil(8), height.div_ceil(8));
        let blank = vec![0; 64 * columns * rows];
        let mut film = FilmWriter {
            part,
            file: BufWriter::new(file),
            bytes: 0,
            width,
            height,
            columns,
            rows,
            front: blank.clone(),
            back: blank,
            pictures: 0,
            palette: Vec::new(),
            wanted_palette: Vec::new(),
            interval: None,
            elapsed: 0,
            sound,
            sound_bytes: 0,
            sound_opcodes: 0,
            map: vec![0; mve::MAP_BYTES],
            body: vec![0; LONGEST_BODY],
        };
        film.write_front()?;
        Ok(film)
    }

    /// Takes the colours of the pictures that follow, 0 to 63.
    pub fn set_palette(&mut self, palette: Vec<[u8; 3]>) {
        self.wanted_palette = palette;
    }

    /// Adds a picture, a palette entry for each pixel, that stays for these microseconds.
    pub fn add(&mut self, pixels: &[u8], interval: u32) -> Result<(), Unadded> {
        let wanted = self.padded(pixels);
        let (map, body) = self.encoded(&wanted).map_err(Unadded::Refused)?;
        let mut groups = vec![self.before(interval, &map)];
        self.elapsed += u64::from(interval);
        groups.extend(self.sound_due());
        let send = if self.sound.is_some() { &SEND[..] } else { &SEND[4..] };
        let opcodes = [&opcode(kind::VIDEO, 0, &body), send].concat();
        groups.push(Group { opcodes, is_sound: false });
        self.write_groups(groups)?;
        self.pictures += 1;
        self.back = std::mem::replace(&mut self.front, wanted);
        Ok(())
    }

    /// Adds the picture before once more; before the first, one of entry 0.
    pub fn add_again(&mut self, interval: u32) -> Result<(), Unadded> {
        let row = |y: usize| self.front[8 * self.columns * y..][..self.width].to_vec();
        let pixels: Vec<u8> = (0..self.height).flat_map(row).collect();
        self.add(&pixels, interval)
    }

    /// Ends the film, and gives it its name. Two chunks say that it ends, as in films of old: ffmpeg reads
    /// the end of a short film twice, and takes what else it finds there for an error.
    pub fn finish(mut self, overwrite: &Overwrite) -> Result<Written, Failure> {
        self.write_chunk(chunk::SHUTDOWN, &END_OF_CHUNK)?;
        self.write_chunk(chunk::LAST, &opcode(kind::END, 0, &[]))?;
        let flushed = self.file.flush();
        flushed.map_err(|error| Failure::write(&self.part.target, error))?;
        let sound = self.sound.map(|Pcm { format, samples }| Heard {
            format,
            bytes: self.sound_bytes,
            left_out: samples.len() - self.sound_bytes,
        });
        let FilmWriter { width, height, columns, rows, pictures, elapsed, bytes, .. } = self;
        self.part.keep(overwrite)?;
        Ok(Written { bytes, width, height, columns, rows, pictures, elapsed, sound })
    }

    /// The header, the size, and the format of the sound in a chunk of its own, where other players
    /// look for it.
    fn write_front(&mut self) -> Result<(), Failure> {
        self.write(HEADER)?;
        let size = words(&[self.columns as u16, self.rows as u16, 1, 0]);
        let mode = words(&[640, 480, 0]);
        let first = [&opcode(kind::MODE, 0, &mode)[..], &opcode(kind::SIZE, 2, &size)].concat();
        self.write_chunk(chunk::FIRST, &[&first[..], &END_OF_CHUNK].concat())?;
        let Some(Pcm { format, .. }) = &self.sound else { return Ok(()) };
        let flags = format.channels - 1 | (format.bits / 8 - 1) << 1;
        let second = u32::from(format.rate) * u32::from(format.frame_bytes());
        let body = [&words(&[0, flags, format.rate])[..], &second.to_le_bytes()].concat();
        let opcodes = [&opcode(kind::SOUND_FORMAT, 1, &body)[..], &END_OF_CHUNK].concat();
        self.write_chunk(chunk::SOUND_FORMAT, &opcodes)
    }

    /// The picture with its last column and its last row repeated up to whole blocks.
    fn padded(&self, pixels: &[u8]) -> Vec<u8> {
        let row = |y: usize| &pixels[y.min(self.height - 1) * self.width..][..self.width];
        let pixel = |x: usize, y: usize| row(y)[x.min(self.width - 1)];
        let places = (0..8 * self.rows).flat_map(|y| (0..8 * self.columns).map(move |x| (x, y)));
        places.map(|(x, y)| pixel(x, y)).collect()
    }

    /// Map and body of opcode 0x11. What the pictures hold before the first is the player's, so the first
    /// copies nothing from them, and the second nothing from back.
    fn encoded(&mut self, wanted: &[u8]) -> Result<(Vec<u8>, Vec<u8>), Error> {
        let unlike = || wanted.iter().map(|entry| !entry).collect::<Vec<u8>>();
        let (front, back) = match self.pictures {
            0 => (&unlike(), &unlike()),
            1 => (&self.front, &unlike()),
            _ => (&self.front, &self.back),
        };
        let (map, body) = (&mut self.map, &mut self.body);
        let encoded = mve::encode(self.columns, self.rows, wanted, front, back, map, body)
            .map_err(|refusal| match refusal.error {
                Error::Room => Error::PacketLength,
                other => other,
            })?;
        let mut body = body[..encoded.body_length].to_vec();
        body[SWAP_BYTE] |= 1;
        Ok((map[..encoded.map_length].to_vec(), body))
    }

    /// What comes before a picture: its time and its colours, where they change, and its map.
    fn before(&mut self, interval: u32, map: &[u8]) -> Group {
        let mut opcodes = Vec::new();
        if self.interval != Some(interval) {
            let timer = [&interval.to_le_bytes()[..], &words(&[1])].concat();
            opcodes.extend(opcode(kind::TIMER, 0, &timer));
            self.interval = Some(interval);
        }
        if self.palette != self.wanted_palette {
            opcodes.extend(palette_change(&self.palette, &self.wanted_palette));
            self.palette.clone_from(&self.wanted_palette);
        }
        opcodes.extend(opcode(kind::MAP, 0, map));
        Group { opcodes, is_sound: false }
    }

    /// The sound up to the end of the picture's time.
    fn sound_due(&mut self) -> Vec<Group> {
        let Some(Pcm { format, samples }) = &self.sound else { return Vec::new() };
        let frames = self.elapsed * u64::from(format.rate) / 1_000_000;
        let end = (frames as usize * usize::from(format.frame_bytes())).min(samples.len());
        let mut groups = Vec::new();
        for bytes in samples[self.sound_bytes..end].chunks(SOUND_BYTES) {
            let count = (8 * bytes.len() / usize::from(format.bits)) as u16;
            let front = |streams| words(&[self.sound_opcodes, streams, count]);
            let heard = [&front(FIRST_STREAM)[..], bytes].concat();
            let silent = front(!FIRST_STREAM);
            let opcodes =
                [opcode(kind::SOUND, 0, &heard), opcode(kind::SILENCE, 0, &silent)].concat();
            groups.push(Group { opcodes, is_sound: true });
            self.sound_opcodes = self.sound_opcodes.wrapping_add(1);
        }
        self.sound_bytes = end;
        groups
    }

    /// Writes groups in as few chunks as they fit in, with one sound in each at most.
    fn write_groups(&mut self, groups: Vec<Group>) -> Result<(), Failure> {
        let mut open: Vec<Group> = Vec::new();
        for group in groups {
            let length: usize = open.iter().map(|group| group.opcodes.len()).sum();
            let is_full = length + group.opcodes.len() + END_OF_CHUNK.len() > LONGEST_CHUNK;
            let has_sound = group.is_sound && open.iter().any(|group| group.is_sound);
            if is_full || has_sound {
                self.write_open(&open)?;
                open.clear();
            }
            open.push(group);
        }
        self.write_open(&open)
    }

    fn write_open(&mut self, groups: &[Group]) -> Result<(), Failure> {
        let is_sound = groups.iter().all(|group| group.is_sound);
        let mut opcodes: Vec<u8> =
            groups.iter().flat_map(|group| &group.opcodes).copied().collect();
        opcodes.extend(END_OF_CHUNK);
        self.write_chunk(if is_sound { chunk::SOUND } else { chunk::PICTURE }, &opcodes)
    }

    fn write_chunk(&mut self, kind: u16, opcodes: &[u8]) -> Result<(), Failure> {
        self.write(&words(&[opcodes.len() as u16, kind]))?;
        self.write(opcodes)
    }

    fn write(&mut self, bytes: &[u8]) -> Result<(), Failure> {
        self.bytes += bytes.len();
        let written = self.file.write_all(bytes);
        written.map_err(|error| Failure::write(&self.part.target, error))
    }
}

impl Written {
    /// All of it, a line each.
    pub fn lines(&self) -> Vec<(&'static str, String)> {
        let Written { width, height, columns, rows, pictures, .. } = *self;
        let (wide, high) = (8 * columns, 8 * rows);
        let mut lines = vec![
            ("size", format!("{wide}x{high} pixels, {columns}x{rows} blocks")),
            ("pictures", pictures.to_string()),
            ("duration", format!("{} s", seconds(self.elapsed))),
            ("sound", self.sound.as_ref().map_or("none".into(), Heard::line)),
            ("bytes", self.bytes.to_string()),
            ("players", "bit 0 of byte 12 of each opcode 0x11 is set, as some ask".into()),
        ];
        if (wide, high) != (width, height) {
            let how = "the last column and the last row are repeated";
            lines.insert(1, ("padded", format!("from {width}x{height} pixels: {how}")));
        }
        lines
    }

    /// Lines as a text.
    pub fn text(name: &str, lines: Vec<(&'static str, String)>) -> String {
        let lines = lines.iter().map(|(head, text)| format!("  {head:<10}{text}\n"));
        format!("{name}\n{}", lines.collect::<String>())
    }

    /// The object of a film.
    pub fn object(&self, name: &Path) -> Value {
        let Written { bytes, width, height, columns, rows, pictures, elapsed, ref sound } = *self;
        let (wide, high) = (8 * columns, 8 * rows);
        let is_padded = (wide, high) != (width, height);
        json!({
            "file": name.to_string_lossy(),
            "bytes": bytes,
            "size": {"width": wide, "height": high, "columns": columns, "rows": rows},
            "padded_from": is_padded.then(|| json!({"width": width, "height": height})),
            "pictures": pictures,
            "duration_us": elapsed,
            "sound": sound.as_ref().map(Heard::object),
            "swap_bit": true,
        })
    }
}

impl Heard {
    /// The microseconds of some bytes.
    fn duration(&self, bytes: usize) -> u64 {
        let frames = bytes as u64 / u64::from(self.format.frame_bytes());
        frames * 1_000_000 / u64::from(self.format.rate)
    }

    fn line(&self) -> String {
        let duration = seconds(self.duration(self.bytes));
        let text = format!("{}, {duration} s", listing::format(&self.format));
        match self.duration(self.left_out) {
            0 => text,
            left => format!("{text}; {} s behind the pictures are left out", seconds(left)),
        }
    }

    fn object(&self) -> Value {
        let Format { rate, channels, bits, .. } = self.format;
        json!({
            "rate": rate,
            "channels": channels,
            "bits": bits,
            "duration_us": self.duration(self.bytes),
            "left_out_us": self.duration(self.left_out),
        })
    }
}

fn seconds(microseconds: u64) -> String {
    let thousandths = (microseconds + 500) / 1000;
    format!("{}.{:03}", thousandths / 1000, thousandths % 1000)
}

/// Opcode 0x0C with the entries that change, and those between them.
fn palette_change(old: &[[u8; 3]], new: &[[u8; 3]]) -> Vec<u8> {
    let is_new = |entry: &usize| old.get(*entry) != new.get(*entry);
    let first = (0..new.len()).find(is_new).unwrap_or(0);
    let last = (0..new.len()).rev().find(is_new).unwrap_or(0);
    let range = words(&[first as u16, (last + 1 - first) as u16]);
    opcode(kind::PALETTE, 0, &[&range[..], new[first..=last].as_flattened()].concat())
}

/// An opcode with its head.
fn opcode(kind: u8, version: u8, body: &[u8]) -> Vec<u8> {
    [&words(&[body.len() as u16])[..], &[kind, version], body].concat()
}

fn words(words: &[u16]) -> Vec<u8> {
    words.iter().flat_map(|word| word.to_le_bytes()).collect()
}

#[cfg(test)]
mod tests {
    use super::*;

    /// The entries from the first to the last that changes; all at first.
    #[test]
    fn palette_changes() {
        let old = [[1; 3], [2; 3], [3; 3], [4; 3]];
        assert_eq!(palette_change(&[], &old[..1]), [7, 0, 0x0C, 0, 0, 0, 1, 0, 1, 1, 1]);
        let new = [[1; 3], [9; 3], [3; 3], [4; 3]];
        assert_eq!(palette_change(&old, &new), [7, 0, 0x0C, 0, 1, 0, 1, 0, 9, 9, 9]);
        let new = [[1; 3], [9; 3], [3; 3], [8; 3]];
        let run = [9, 9, 9, 3, 3, 3, 8, 8, 8];
        assert_eq!(palette_change(&old, &new), [&[13, 0, 0x0C, 0, 1, 0, 3, 0][..], &run].concat());
    }

    /// The longest body fills a chunk.
    #[test]
    fn longest_body() {
        let opcodes =
            [&opcode(kind::VIDEO, 0, &[0; LONGEST_BODY])[..], &SEND, &END_OF_CHUNK].concat();
        assert_eq!(opcodes.len(), LONGEST_CHUNK);
        assert_eq!(opcodes[..2], [0xEB, 0xFF]); // 65,515
    }
}
