//! Damage to films with sound: one opcode that is refused for a stream.

use crate::film::{Film, Opcode};
use crate::seeded::Seeded;
use crate::sound::{film_of, init_audio, Format, Track};

/// Kinds of damage, each with the number of refusal that it is made for, whatever the room is.
#[derive(Clone, Copy, Debug, PartialEq, Eq)]
pub enum Damage {
    /// A version that is not taken, of any length: 4.
    Version,
    /// A body of a wrong length, also of a packet for other streams, and of a 03 both 8-bit and
    /// compressed: 5.
    BodyLength,
    /// A packet for the stream before any 03, with any count and data: 17.
    BeforeFormat,
    /// A 03 both 8-bit and compressed: 17.
    NarrowCompressed,
    /// Data of another length than the count says: 18.
    DataLength,
    /// An odd count in stereo, of either packet: 18.
    OddCount,
    /// A first compressed 08 that counts below the channels: 18.
    BelowChannels,
}

impl Damage {
    /// Every kind.
    pub const ALL: [Damage; 7] = [
        Damage::Version,
        Damage::BodyLength,
        Damage::BeforeFormat,
        Damage::NarrowCompressed,
        Damage::DataLength,
        Damage::OddCount,
        Damage::BelowChannels,
    ];

    /// The number of refusal.
    pub fn number(self) -> u8 {
        match self {
            Damage::Version => 4,
            Damage::BodyLength => 5,
            Damage::BeforeFormat | Damage::NarrowCompressed => 17,
            Damage::DataLength | Damage::OddCount | Damage::BelowChannels => 18,
        }
    }
}

/// A film with sound for a stream and one damage of this kind; behind it valid sound goes on.
pub fn damaged(rng: &mut Seeded, stream: usize, damage: Damage) -> Film {
    let frames = rng.between(1, 3);
    let mut track = Track::new(stream);
    let mut done = false;
    film_of(rng, stream, frames, |rng, left| {
        if !done && (left == 0 || rng.one_in(8)) {
            done = true;
            return opcodes(rng, &mut track, damage);
        }
        let only_others = damage == Damage::BeforeFormat && !done;
        (0..rng.below(3))
            .map(|_| if only_others { track.other(rng) } else { track.next(rng) })
            .collect()
    })
}

/// A damaged opcode, behind those that it needs.
fn opcodes(rng: &mut Seeded, track: &mut Track, damage: Damage) -> Vec<Opcode> {
    match damage {
        Damage::Version => vec![wrong_version(rng, track)],
        Damage::BodyLength => vec![wrong_length(rng, track)],
        Damage::BeforeFormat => vec![before_format(rng, track)],
        Damage::NarrowCompressed => {
            let flags = 0b100 | rng.below(2) as u16;
            vec![init_audio(rng, 1, flags)]
        }
        Damage::DataLength => data_length(rng, track),
        Damage::OddCount => odd_count(rng, track),
        Damage::BelowChannels => below_channels(rng, track),
    }
}

/// A body of 08 or 09 for the stream, or now and then for others, with any count and data.
fn any_body(rng: &mut Seeded, track: &Track) -> Vec<u8> {
    if rng.one_in(3) {
        return track.other(rng).body;
    }
    let (count, length) = (rng.below(6), rng.below(9));
    let data = rng.bytes(length);
    track.packet(rng, 0x08, count, data).body
}

fn wrong_version(rng: &mut Seeded, track: &Track) -> Opcode {
    let kind = rng.pick(&[0x03, 0x08, 0x09]);
    let first = if kind == 0x03 { 2 } else { 1 };
    let version = rng.pick(&[first, first, first + 1, 255]);
    Opcode::new(kind, version, any_body(rng, track))
}

fn wrong_length(rng: &mut Seeded, track: &Track) -> Opcode {
    let version = rng.below(2);
    let right = 8 + 2 * version;
    let (kind, version, length) = match rng.below(4) {
        0 => (0x08, 0, rng.below(6)),
        1 => (0x09, 0, rng.pick(&[0, 5, 7, 8, 20])),
        _ => (0x03, version as u8, rng.pick(&[0, 6, right - 1, right + 1, 18 - right, 12])),
    };
    let mut body = any_body(rng, track);
    body.resize(length, 0);
    Opcode::new(kind, version, body)
}

fn before_format(rng: &mut Seeded, track: &Track) -> Opcode {
    let (count, length) = (rng.below(6), rng.below(9));
    let data = rng.bytes(length);
    match rng.below(3) {
        0 => track.packet(rng, 0x09, count, Vec::new()),
        _ => track.packet(rng, 0x08, count, data),
    }
}

/// Opcodes that lead to one of these formats, up to two packets of it included.
fn formatted(rng: &mut Seeded, track: &mut Track, formats: &[Format]) -> (Format, Vec<Opcode>) {
    let format = match track.format {
        Some(format) if formats.contains(&format) && rng.one_in(2) => return (format, Vec::new()),
        _ => rng.pick(formats),
    };
    let mut opcodes = vec![track.start(rng, format)];
    for _ in 0..rng.below(3) {
        opcodes.push(track.data(rng, format));
    }
    (format, opcodes)
}

/// Data a byte or more too short or too long, or as long as those of another format, or of a packet
/// that is first where this is not.
fn data_length(rng: &mut Seeded, track: &mut Track) -> Vec<Opcode> {
    let (format, mut opcodes) = formatted(rng, track, &Format::ALL);
    let pairs = rng.between(1, 6);
    let count = pairs * 2;
    let right = track.data_length(format, count);
    let lengths = [0, right - 1, right + 1, right + 2, count, count + 1, count + 2, 2 * count];
    let wrong: Vec<usize> = lengths.into_iter().filter(|&length| length != right).collect();
    let length = rng.pick(&wrong);
    let data = rng.bytes(length);
    opcodes.push(track.packet(rng, 0x08, count, data));
    opcodes
}

/// One sample more than an even number, with as much data as the count says.
fn odd_count(rng: &mut Seeded, track: &mut Track) -> Vec<Opcode> {
    let stereo = Format::ALL.map(|format| Format { stereo: true, ..format });
    let (format, mut opcodes) = formatted(rng, track, &stereo);
    let pairs = rng.between(1, 6);
    let count = 2 * pairs + 1;
    opcodes.push(if rng.one_in(3) {
        track.packet(rng, 0x09, count, Vec::new())
    } else {
        let data = rng.bytes(track.data_length(format, count));
        track.packet(rng, 0x08, count, data)
    });
    opcodes
}

/// A count of 0, or of 1 in stereo, with all start words, with as many bytes as the count lacks
/// them, or with none.
fn below_channels(rng: &mut Seeded, track: &mut Track) -> Vec<Opcode> {
    let stereo = rng.one_in(2);
    let format = Format { stereo, wide: true, compressed: true };
    let count = rng.below(format.channels());
    let length = rng.pick(&[0, 2 * format.channels(), count + format.channels()]);
    let start = track.start(rng, format);
    let data = rng.bytes(length);
    vec![start, track.packet(rng, 0x08, count, data)]
}
