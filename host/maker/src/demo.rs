//! The demonstration: a ball bounces through a sunset, for four seconds at ten pictures a second, with a
//! tone at each bounce. `./demo` has its film made by `mve make`, from the pictures and the samples that
//! are here. The film that is made here shows the same; it has every opcode that is acted on and blocks
//! of many codes, so the tests have it, and so has `./demo` where the command cannot be built. Its
//! beginning is small enough for the listing program.
//!
//! Other players show it in the same colours and with the same sound (`docs/PEERS.md`): libavformat
//! passes over 0B and 0D, so each has a 0C of the same colours behind it; the sound is uncompressed; and
//! the first pictures copy from none that was not sent before.

use crate::encode;
use crate::files;
use crate::film::{init_video, packet_opcodes, Chunk, Film, Opcode};
use crate::seeded::Seeded;
use crate::size::Size;
use std::path::Path;
use std::{fs, io};

/// 16x12 blocks, which are 128x96 pixels.
pub const SIZE: Size = Size { columns: 16, rows: 12 };
/// The pictures that the film sends.
pub const FRAMES: usize = 40;
/// The pictures of the beginning that the listing program takes.
pub const LISTED: usize = 4;
/// The stream of its sound.
pub const STREAM: usize = 0;
/// Samples a second.
pub const RATE: usize = 22_050;
/// Samples that go with a picture: a tenth of a second.
pub const SAMPLES: usize = RATE / 10;

/// Palette entries: a colour for each block of the sky and of the ground, then single ones.
const SKY: usize = 0;
const SKY_ROWS: usize = 9;
const GROUND: usize = SKY + SKY_ROWS * 16;
const GROUND_ROWS: usize = 3;
const BALL: usize = 192;
const SUN: usize = 196;
const HILL: usize = 198;
const STAR: usize = 199;
const SHADOW: usize = 200;

/// The last of them, from `SUN` on.
const SINGLE_COLOURS: [[u8; 3]; 5] =
    [[63, 60, 36], [63, 48, 10], [10, 2, 14], [60, 60, 63], [4, 6, 2]];
/// The ball's shades, brightest first; it changes colour where it meets the ground.
const BALL_COLOURS: [[[u8; 3]; 4]; 4] = [
    [[63, 63, 60], [63, 44, 8], [52, 26, 4], [30, 12, 2]],
    [[63, 63, 63], [20, 50, 63], [8, 32, 52], [2, 16, 30]],
    [[62, 63, 60], [36, 60, 16], [18, 42, 8], [8, 24, 4]],
    [[63, 62, 63], [63, 30, 50], [48, 14, 34], [28, 6, 20]],
];
/// An entry that no picture has.
const NO_ENTRY: u8 = 255;
/// Pictures between two bounces.
const BOUNCE: usize = FRAMES / BALL_COLOURS.len();

/// The tone of each bounce, in cycles a second.
const TONES: [usize; 4] = [262, 330, 392, 523];
/// How loud a tone begins; it fades until the next one.
const LOUD: isize = 9000;

/// The film.
pub fn film() -> Film {
    beginning(FRAMES)
}

/// A film of its first pictures, so many.
pub fn beginning(frames: usize) -> Film {
    let mut chunks = vec![first_chunk(), sound_chunk()];
    // What pictures hold at first is the host's: with these, no block is found in them and copied.
    let (mut front, mut back) = (vec![NO_ENTRY; SIZE.pixels()], vec![NO_ENTRY; SIZE.pixels()]);
    for frame in 0..frames.min(FRAMES) {
        let wanted = picture(frame);
        chunks.push(frame_chunk(frame, &wanted, &front, &back));
        (back, front) = (front, wanted);
    }
    chunks.push(Chunk {
        kind: 5,
        opcodes: vec![Opcode::new(0x00, 0, Vec::new())],
        ..Chunk::default()
    });
    Film { size: SIZE, stream: STREAM, chunks, tail: Vec::new() }
}

/// The picture of a frame: a palette entry for each pixel.
pub fn picture(frame: usize) -> Vec<u8> {
    let ball = Ball::at(frame);
    let pixel = |i| pixel(&ball, (i % SIZE.width()) as isize, (i / SIZE.width()) as isize);
    (0..SIZE.pixels()).map(|i| pixel(i) as u8).collect()
}

/// The colours of a frame: red, green and blue of all entries, 0 to 63.
pub fn palette(frame: usize) -> Vec<[u8; 3]> {
    let mut palette = first_colours();
    palette[BALL..BALL + 4].copy_from_slice(&BALL_COLOURS[frame / BOUNCE]);
    palette
}

/// The samples that go with a frame, as bytes: a triangle wave.
pub fn samples(frame: usize) -> Vec<u8> {
    let tone = TONES[frame / BOUNCE];
    let sample = |n: usize| {
        // From -RATE to RATE and back, four times RATE a cycle.
        let (phase, rate) = ((4 * tone * n % (4 * RATE)) as isize, RATE as isize);
        let wave = ((phase + rate) % (4 * rate) - 2 * rate).abs() - rate;
        let left = (BOUNCE * SAMPLES - n) as isize;
        (wave * LOUD / rate * left / (BOUNCE * SAMPLES) as isize) as i16
    };
    let first = frame % BOUNCE * SAMPLES;
    (first..first + SAMPLES).flat_map(|n| sample(n).to_le_bytes()).collect()
}

/// Writes the pictures to a folder, 000000.png and so on, and the sound, sound.wav.
///
/// # Errors
///
/// A file that cannot be written.
pub fn write_pictures(folder: &Path) -> io::Result<()> {
    fs::create_dir_all(folder)?;
    for frame in 0..FRAMES {
        // As other programs have them: 8 bits a component, the two high bits once more as the low ones.
        let wide = |colour: [u8; 3]| colour.map(|component| component << 2 | component >> 4);
        let palette: Vec<_> = palette(frame).into_iter().map(wide).collect();
        let png = files::png(SIZE.width(), SIZE.height(), &picture(frame), &palette);
        fs::write(folder.join(format!("{frame:06}.png")), png)?;
    }
    let samples: Vec<u8> = (0..FRAMES).flat_map(samples).collect();
    fs::write(folder.join("sound.wav"), files::wav(RATE, &samples))
}

/// Opcode 03, in a chunk of its own, where other players look for it: mono, 16-bit.
fn sound_chunk() -> Chunk {
    let buffer = 2 * RATE;
    let words = [0, 0b10, RATE as u16, buffer as u16].map(u16::to_le_bytes).concat();
    Chunk { kind: 0, opcodes: vec![Opcode::new(0x03, 0, words)], ..Chunk::default() }
}

/// Opcode 08 for the stream, and 09 for all others: "these audio chunks appear to always come in
/// pairs" (003).
fn sound_opcodes(frame: usize) -> [Opcode; 2] {
    let words = |mask: u16| [frame as u16, mask, SAMPLES as u16].map(u16::to_le_bytes).concat();
    let data = [words(1 << STREAM), samples(frame)].concat();
    [Opcode::new(0x08, 0, data), Opcode::new(0x09, 0, words(!(1 << STREAM)))]
}

/// Timer, size, mode, gradients and all colours. Timer and mode are passed over.
fn first_chunk() -> Chunk {
    let timer = [&100_000_u32.to_le_bytes()[..], &1_u16.to_le_bytes()].concat();
    let mode = [640_u16, 480, 0].map(u16::to_le_bytes).concat();
    let gradients = vec![SKY as u8, SKY_ROWS as u8, 16, GROUND as u8, GROUND_ROWS as u8, 16];
    let opcodes = vec![
        Opcode::new(0x02, 0, timer),
        init_video(SIZE),
        Opcode::new(0x0A, 0, mode),
        Opcode::new(0x0B, 0, gradients),
        entries(SKY, &first_colours()),
        Opcode::new(0x01, 0, Vec::new()),
    ];
    Chunk { kind: 2, opcodes, ..Chunk::default() }
}

/// The colours of the first frame.
fn first_colours() -> Vec<[u8; 3]> {
    let sky = gradient(SKY_ROWS, |red, other| [red, 0, other]);
    let ground = gradient(GROUND_ROWS, |red, other| [red, other, 0]);
    [&sky[..], &ground, &BALL_COLOURS[0], &SINGLE_COLOURS].concat()
}

fn frame_chunk(frame: usize, wanted: &[u8], front: &[u8], back: &[u8]) -> Chunk {
    let mut opcodes = Vec::new();
    if frame % BOUNCE == 0 {
        let colours = BALL_COLOURS[frame / BOUNCE];
        opcodes.push(Opcode::new(0x0D, 0, ball_colours(colours)));
        opcodes.push(entries(BALL, &colours));
    }
    let packet = encode::packet(SIZE, wanted, front, back).packet();
    let [map, video] = packet_opcodes(&mut Seeded::new(0), packet);
    opcodes.push(map);
    opcodes.extend(sound_opcodes(frame));
    opcodes.push(video);
    opcodes.push(Opcode::new(0x04, 0, Vec::new())); // old players start the sound here
    opcodes.push(Opcode::new(0x07, 0, vec![0; 4]));
    opcodes.push(Opcode::new(0x01, 0, Vec::new()));
    Chunk { kind: 3, opcodes, ..Chunk::default() }
}

/// Opcode 0C: these colours from an entry on.
fn entries(start: usize, colours: &[[u8; 3]]) -> Opcode {
    let words = [start as u16, colours.len() as u16].map(u16::to_le_bytes);
    Opcode::new(0x0C, 0, [&words.concat()[..], &colours.concat()].concat())
}

/// The colours of a gradient of 0B with 16 columns: red rises by rows, the other colour by columns.
fn gradient(rows: usize, colour: impl Fn(u8, u8) -> [u8; 3]) -> Vec<[u8; 3]> {
    let entry = |i: usize| colour((63 * (i / 16) / (rows - 1)) as u8, (39 * (i % 16) / 15) as u8);
    (0..16 * rows).map(entry).collect()
}

/// A body of 0D: the first four entries of one group of eight.
fn ball_colours(colours: [[u8; 3]; 4]) -> Vec<u8> {
    let mut body = vec![0; BALL / 8];
    body.push(0x0F);
    body.extend(colours.concat());
    body.resize(body.len() + 31 - BALL / 8, 0);
    body
}

/// Where the ball is, and how high above the ground.
struct Ball {
    x: isize,
    y: isize,
    height: isize,
}

impl Ball {
    fn at(frame: usize) -> Ball {
        let (frame, frames, bounce) = (frame as isize, FRAMES as isize, BOUNCE as isize);
        let passed = frame % bounce;
        let height = 52 * 4 * passed * (bounce - passed) / (bounce * bounce);
        Ball { x: 14 + 5 * frame.min(frames - frame), y: 77 - height, height }
    }

    /// The shade of the ball at a pixel: darker away from its bright spot, up and left.
    fn shade(&self, x: isize, y: isize) -> Option<usize> {
        let (dx, dy) = (x - self.x, y - self.y);
        let from_spot = (dx + 4) * (dx + 4) + (dy + 4) * (dy + 4);
        let limits = [12, 90, 170, isize::MAX];
        let shade = limits.iter().position(|&limit| from_spot < limit);
        shade.filter(|_| dx * dx + dy * dy <= 11 * 11 + 5)
    }

    fn shadow(&self, x: isize, y: isize) -> bool {
        let (dx, dy) = (x - self.x, 4 * (y - 88));
        let radius = 11 - self.height / 8;
        dx * dx + dy * dy <= radius * radius
    }
}

fn pixel(ball: &Ball, x: isize, y: isize) -> usize {
    let block = (y / 8 * 16 + x / 8) as usize;
    let sun = (x - 92) * (x - 92) + (y - 62) * (y - 62);
    match ball.shade(x, y) {
        Some(shade) => BALL + shade,
        None if ball.shadow(x, y) => SHADOW,
        None if y >= SKY_ROWS as isize * 8 => GROUND + ground_row(x, y) * 16 + block % 16,
        None if hill(x) >= 72 - y => HILL,
        None if sun <= 10 * 10 => SUN,
        None if sun <= 13 * 13 => SUN + 1,
        None if is_star(x, y) => STAR,
        None => SKY + block,
    }
}

/// The row of the ground's gradient: brightest at the horizon, then two rows at a time, dithered.
fn ground_row(x: isize, y: isize) -> usize {
    match y / 8 {
        9 => 2,
        10 => 1 + (x + y) as usize % 2,
        _ => (x + y) as usize % 2,
    }
}

/// How high the hills are at a column.
fn hill(x: isize) -> isize {
    let peak = |at: isize, height: isize| height - (x - at).abs() / 2;
    peak(22, 15).max(peak(58, 10)).max(peak(118, 12)).max(0)
}

/// Stars are few, and high up.
fn is_star(x: isize, y: isize) -> bool {
    (x * 37 + y * 101) % 509 < 2 && y < 40
}
