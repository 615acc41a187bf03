//! Compressed sound beside libavcodec's decoder, sample by sample.
//!
//! That decoder takes every packet as a first one, with start words, and clips a sum that leaves 16
//! bits, where the documents wrap around. So each packet has a 03 in front, and no sum leaves 16
//! bits: then both mean the same.

use maker::film::Film;
use maker::{sound, Seeded};
use reference::pictures::play;

/// The stream that the films are made for; libavcodec's decoder knows none.
pub const STREAM: usize = 0;
/// Packets of a film.
const PACKETS: usize = 400;

/// What was compared.
#[derive(Clone, Copy, Debug, PartialEq, Eq)]
pub struct Compared {
    /// Packets of sound.
    pub packets: usize,
    /// Samples of all channels.
    pub samples: usize,
}

/// A decoder that is compared with libavcodec's: the samples of the stream in a film, as bytes.
type Decode = fn(&[u8]) -> Result<Vec<u8>, String>;

/// Every such decoder.
const DECODERS: [(&str, Decode); 2] =
    [("the proved library", proved), ("the second decoder", second)];

/// Compares the sound of the film of this seed; `None` where libavcodec is not there.
pub fn compare(seed: u64) -> Result<Option<Compared>, String> {
    let film = sound::restarted(&mut Seeded::new(seed), STREAM, PACKETS);
    let Some(expected) = libav_samples(&film)? else { return Ok(None) };
    let bytes = film.bytes();
    for (name, decode) in DECODERS {
        let decoded = decode(&bytes).map_err(|why| format!("sound, seed {seed}: {name}: {why}"))?;
        same(&decoded, &expected).map_err(|why| format!("sound, seed {seed}: {name}: {why}"))?;
    }
    let samples = expected.iter().map(Vec::len).sum();
    Ok(Some(Compared { packets: expected.len(), samples }))
}

/// The samples that the proved library gives, all formats behind each other.
fn proved(film: &[u8]) -> Result<Vec<u8>, String> {
    let mut state = mve::open(film, STREAM).map_err(|refusal| refusal.to_string())?;
    let (mut palette, mut place, mut room) = ([0; 768], 0, vec![0; mve::ROOM_BYTES]);
    let mut samples = Vec::new();
    loop {
        let (pictures, form) = (&mut mve::Pictures::default(), mve::Form::Default);
        let step = mve::step(film, state, &mut palette, pictures, &mut place, &mut room, 0, form);
        match step {
            Ok(mve::Step::Taken { state: next, bytes, .. }) => {
                samples.extend(&room[..bytes]);
                state = next;
            }
            Ok(mve::Step::Ended { .. }) => return Ok(samples),
            Ok(other) => return Err(format!("{other:?}")),
            Err(refusal) => return Err(format!("{refusal}, at byte {}", state.position)),
        }
    }
}

/// The samples that the second decoder gives, all formats behind each other.
fn second(film: &[u8]) -> Result<Vec<u8>, String> {
    let played = play(film, STREAM);
    match played.refusal {
        Some(refusal) => Err(format!("{refusal}, at byte {}", played.position)),
        None => Ok(played.recordings.into_iter().flat_map(|recording| recording.samples).collect()),
    }
}

/// Whether bytes are the samples of these packets, low byte first; else the first that differs.
fn same(bytes: &[u8], packets: &[Vec<i16>]) -> Result<(), String> {
    let mut samples = bytes.chunks(2);
    for (packet, expected) in packets.iter().enumerate() {
        for (number, expected) in expected.iter().enumerate() {
            let sample = samples.next().unwrap_or(&[]);
            if sample != expected.to_le_bytes() {
                let at = format!("packet {packet}, sample {number}");
                return Err(format!("{at}: bytes {sample:02x?}, {expected} by libavcodec"));
            }
        }
    }
    match samples.count() {
        0 => Ok(()),
        more => Err(format!("{more} samples more than by libavcodec")),
    }
}

/// The samples of each packet by libavcodec; `None` where that is not there.
#[cfg(not(libavcodec))]
fn libav_samples(_film: &Film) -> Result<Option<Vec<Vec<i16>>>, String> {
    Ok(None)
}

/// The samples of each packet by libavcodec; `None` where it was built without its decoder of
/// Interplay sound.
#[cfg(libavcodec)]
fn libav_samples(film: &Film) -> Result<Option<Vec<Vec<i16>>>, String> {
    use crate::ffi::{Packet, SoundDecoder};
    let (Some(mut mono), Some(mut stereo)) = (SoundDecoder::open(1), SoundDecoder::open(2)) else {
        return Ok(None);
    };
    let mut decoder = &mut mono;
    let mut packets = Vec::new();
    let mut room = vec![0; 65_535];
    for opcode in film.chunks.iter().flat_map(|chunk| &chunk.opcodes) {
        if opcode.kind == 0x03 {
            // Bit 0 of the flags.
            decoder = if opcode.body[2] & 1 == 0 { &mut mono } else { &mut stereo };
            continue;
        }
        // It skips the three words in front of the data itself.
        let packet = Packet::new(&opcode.body).expect("memory");
        let number = packets.len();
        let failed = |why: String| format!("sound: packet {number} by libavcodec: {why}");
        decoder.decode(&packet).map_err(|error| failed(format!("error {error}")))?;
        let count = decoder.samples(&mut room).filter(|&count| count <= room.len());
        let count = count.ok_or_else(|| failed("no 16-bit samples".to_owned()))?;
        packets.push(room[..count].to_vec());
    }
    Ok(Some(packets))
}

#[cfg(test)]
mod tests {
    use super::*;

    /// The sound of several seeds is the same, where libavcodec is there.
    #[test]
    fn same_samples() {
        for seed in 1..=10 {
            match compare(seed).unwrap_or_else(|why| panic!("{why}")) {
                Some(Compared { packets, samples }) => {
                    println!("seed {seed}: {samples} samples of {packets} packets");
                    assert!(packets == PACKETS && samples > 10_000);
                }
                None if cfg!(libavcodec) => panic!("libavcodec has no decoder of Interplay sound"),
                None => return println!("not compared with libavcodec: it is not there"),
            }
        }
    }

    /// A sample that differs, is missing or is too much would be found, and named.
    #[test]
    fn differences() {
        let packets = [vec![1, -2], vec![0x1234]];
        let right = [1, 0, 0xFE, 0xFF, 0x34, 0x12];
        assert_eq!(same(&right, &packets), Ok(()));
        let found = |bytes: &[u8]| same(bytes, &packets).expect_err("a difference");
        let of_last = |sample| format!("packet 1, sample 0: bytes {sample}, 4660 by libavcodec");
        assert_eq!(found(&[1, 0, 0xFE, 0xFF, 0x12, 0x34]), of_last("[12, 34]"));
        assert_eq!(found(&right[..5]), of_last("[34]"));
        assert_eq!(found(&right[..4]), of_last("[]"));
        let second = "packet 0, sample 1: bytes [fe, fe], -2 by libavcodec";
        assert_eq!(found(&[1, 0, 0xFE, 0xFE, 0x34, 0x12]), second);
        let longer = [&right[..], &[0, 0]].concat();
        assert_eq!(found(&longer), "1 samples more than by libavcodec");
    }
}
