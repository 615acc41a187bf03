//! The sentences of document 02's W5, in its order, run on the proved library. The expected values
//! are worked out by hand from the documents.

use mve::{open, step, Error, Form, Pictures, Refusal, Sound, State, Step, ROOM_BYTES};

const HEADER: &[u8; 26] = b"Interplay MVE File\x1A\0\x1A\0\0\x01\x33\x11";

/// Flags of 03.
const MONO_8: u16 = 0b000;
const STEREO_8: u16 = 0b001;
const MONO_16: u16 = 0b010;
const STEREO_16: u16 = 0b011;
const MONO_COMPRESSED: u16 = 0b110;
const STEREO_COMPRESSED: u16 = 0b111;

fn opcode(kind: u8, version: u8, body: &[u8]) -> Vec<u8> {
    [&(body.len() as u16).to_le_bytes()[..], &[kind, version], body].concat()
}

/// A body of words.
fn words(words: &[u16]) -> Vec<u8> {
    words.iter().copied().flat_map(u16::to_le_bytes).collect()
}

/// Opcode 03 in version 1: a word that is not read, flags, rate, and the buffer's length, two words.
fn format(flags: u16) -> Vec<u8> {
    opcode(0x03, 1, &words(&[0, flags, 22_050, 0, 0]))
}

/// Opcode 08 for stream 0: index, mask, length in samples, data.
fn data(count: u16, data: &[u8]) -> Vec<u8> {
    opcode(0x08, 0, &[&words(&[7, 1, count])[..], data].concat())
}

/// Opcode 09 for stream 0.
fn silence(count: u16) -> Vec<u8> {
    opcode(0x09, 0, &words(&[7, 1, count]))
}

fn film(opcodes: &[Vec<u8>]) -> Vec<u8> {
    let body = opcodes.concat();
    [HEADER, &words(&[body.len() as u16, 0])[..], &body].concat()
}

/// A step in a room of this length, each byte of it 5A. With what the room holds then.
fn step_in(film: &[u8], state: State, length: usize) -> (Result<Step, Refusal>, Vec<u8>) {
    let (mut palette, mut place, mut room) = ([0; 768], 0, vec![0x5A; length]);
    let (pictures, form) = (&mut Pictures::default(), Form::Default);
    let stepped = step(film, state, &mut palette, pictures, &mut place, &mut room, 0, form);
    assert_eq!((palette, place), ([0; 768], 0));
    (stepped, room)
}

/// The samples of a film, and how it went: the last state, and the number of a refusal.
struct Heard {
    samples: Vec<u8>,
    state: State,
    refused: Option<u8>,
}

/// Every step is checked to leave the rest of the room as it was, and the whole room where it is
/// refused; every step that is no chosen sound to write nothing. The film is opened by separate calls:
/// it has no size, and the opening call drops the samples before one.
fn hear(film: &[u8], stream: usize) -> Heard {
    let mut state = open(film, stream).expect("a header");
    let mut samples = Vec::new();
    loop {
        let (stepped, room) = step_in(film, state, ROOM_BYTES);
        let (next, bytes) = match stepped {
            Ok(Step::Taken { state: next, stores: 0, bytes }) => (next, bytes),
            Ok(Step::Ended { .. }) => return Heard { samples, state, refused: None },
            Ok(other) => panic!("no picture is drawn: {other:?}"),
            Err(refusal) => {
                assert!(refusal.block == 0 && room == [0x5A; ROOM_BYTES]);
                return Heard { samples, state, refused: Some(refusal.number()) };
            }
        };
        assert!(room[bytes..].iter().all(|&byte| byte == 0x5A));
        samples.extend(&room[..bytes]);
        state = next;
    }
}

/// The samples of stream 0 in a film of these opcodes.
fn samples(opcodes: &[Vec<u8>]) -> Vec<u8> {
    let heard = hear(&film(opcodes), 0);
    assert_eq!(heard.refused, None);
    heard.samples
}

/// The number that the last of these opcodes is refused by, for stream 0.
#[track_caller]
fn refused(opcodes: &[Vec<u8>]) -> u8 {
    let film = film(opcodes);
    let heard = hear(&film, 0);
    let last = opcodes.last().expect("an opcode").len();
    assert_eq!(heard.state.position, film.len() - last, "{:?}", heard.refused);
    heard.refused.expect("a refusal")
}

fn little_endian(samples: &[i16]) -> Vec<u8> {
    samples.iter().flat_map(|sample| sample.to_le_bytes()).collect()
}

/// "Opcodes 03 (versions 0, 1; body 8, 10) and 08, 09 (version 0; body at least 6, exactly 6) become
/// acted on."
#[test]
fn versions_and_lengths() {
    for (version, length) in [(0, 8), (1, 10)] {
        let format = opcode(0x03, version, &vec![0; length]);
        assert_eq!(samples(&[format]), []);
        for wrong in [0, length - 1, length + 1, 18 - length] {
            assert_eq!(refused(&[opcode(0x03, version, &vec![0; wrong])]), 5, "{wrong} bytes");
        }
    }
    assert_eq!(refused(&[opcode(0x03, 2, &[0; 12])]), 4);
    for kind in [0x08, 0x09] {
        assert_eq!(refused(&[opcode(kind, 1, &[0; 6])]), 4);
        assert_eq!(refused(&[opcode(kind, 0, &[0; 5])]), 5);
        assert_eq!(samples(&[opcode(kind, 0, &[0; 6])]), []);
    }
    assert_eq!(samples(&[opcode(0x08, 0, &[0; 7])]), []);
    assert_eq!(refused(&[opcode(0x09, 0, &[0; 7])]), 5);
}

/// "The state keeps a stream number, given at opening; above 15, as in the listing program, these
/// three stay passed over."
#[test]
fn streams() {
    let wrong = [0x03, 0x08, 0x09].map(|kind| opcode(kind, 9, &[1]));
    let sound = film(&[&wrong[..], &[silence(1)]].concat());
    for stream in [16, 17, 31, 32, 64, usize::MAX] {
        let heard = hear(&sound, stream);
        assert_eq!((heard.refused, heard.samples.len()), (None, 0));
        assert_eq!(heard.state.sound, Sound { stream, ..Sound::default() });
    }
    for stream in 0..16 {
        assert_eq!(hear(&sound, stream).refused, Some(4));
        let chosen = opcode(0x09, 0, &words(&[0, 1 << stream, 3]));
        let others = opcode(0x09, 0, &words(&[0, !(1 << stream), 5]));
        let heard = hear(&film(&[format(MONO_8), others, chosen]), stream);
        assert_eq!((heard.refused, &heard.samples[..]), (None, &[128; 3][..]));
        assert_eq!(heard.state.sound.stream, stream);
    }
}

/// "Packets whose mask lacks its bit get no further test."
#[test]
fn other_masks() {
    let masked = |kind, count| opcode(kind, 0, &words(&[0, 0xFFFE, count]));
    // Before a format, of a wrong length, of an odd count.
    assert_eq!(samples(&[masked(0x08, 40_000), masked(0x09, 7)]), []);
    assert_eq!(samples(&[format(STEREO_16), masked(0x08, 3), masked(0x09, 3)]), []);
    let film = film(&[format(MONO_8), masked(0x09, 9)]);
    let state = State { position: film.len() - 10, ..hear(&film, 0).state };
    let (stepped, _) = step_in(&film, state, 0);
    assert!(matches!(stepped, Ok(Step::Taken { bytes: 0, .. })), "{stepped:?}");
}

/// "A later 03 starts afresh."
#[test]
fn later_formats() {
    let start = [format(MONO_COMPRESSED), data(2, &[100, 0, 1])];
    let first = little_endian(&[100, 101]);
    let again = [&start[..], &start].concat();
    assert_eq!(samples(&again), [&first[..], &first].concat());
    let state = hear(&film(&[&start[..], &[format(STEREO_8)]].concat()), 0).state;
    assert_eq!(state.sound, Sound { has_format: true, stereo: true, ..Sound::default() });
}

/// "Compressed sound (bit 2, version 1 only) is 16-bit"; in version 0 the bit is not read.
#[test]
fn compressed_in_version_1() {
    let version_0 = |flags| opcode(0x03, 0, &words(&[0, flags, 22_050, 0]));
    assert_eq!(samples(&[version_0(MONO_COMPRESSED), data(1, &[1, 2])]), [1, 2]);
    assert_eq!(samples(&[version_0(0b100), data(2, &[1, 2])]), [1, 2]);
    assert_eq!(refused(&[format(0b100)]), 17);
    assert_eq!(refused(&[format(0b101)]), 17);
    let state = hear(&film(&[format(STEREO_COMPRESSED)]), 0).state;
    let Sound { stereo, wide, compressed, begun, .. } = state.sound;
    assert_eq!((stereo, wide, compressed, begun), (true, true, true, false));
}

/// "The first 08 has one start word a channel, then one byte a sample, left and right in turn."
#[test]
fn start_words() {
    let mono = [format(MONO_COMPRESSED), data(4, &[0x34, 0x12, 1, 0, 2])];
    assert_eq!(samples(&mono), little_endian(&[0x1234, 0x1235, 0x1235, 0x1237]));
    let stereo = [format(STEREO_COMPRESSED), data(6, &[10, 0, 20, 0, 1, 2, 0, 255])];
    assert_eq!(samples(&stereo), little_endian(&[10, 20, 11, 22, 11, 21]));
}

/// "Each byte picks from the 256 steps listed in 003, added in 16 bits with wrap-around (29973 past
/// 32767 is negative)."
#[test]
fn wrap_around() {
    // Entries 136 and 120 are 29973 and -29973.
    let up = [format(MONO_COMPRESSED), data(2, &[0xFF, 0x7F, 136])];
    assert_eq!(samples(&up), little_endian(&[32_767, (32_767 + 29_973 - 65_536) as i16]));
    let down = [format(MONO_COMPRESSED), data(2, &[0x00, 0x80, 120])];
    assert_eq!(samples(&down), little_endian(&[-32_768, (65_536 - 32_768 - 29_973) as i16]));
}

/// "The start words are the first samples and count in the length, which covers both channels; later
/// packets go on from the last sample of each channel."
#[test]
fn later_packets() {
    let first = [format(STEREO_COMPRESSED), data(2, &[10, 0, 20, 0])];
    assert_eq!(samples(&first), little_endian(&[10, 20]));
    let state = hear(&film(&first), 0).state;
    assert_eq!((state.sound.begun, state.sound.left, state.sound.right), (true, 10, 20));
    let later = [&first[..], &[data(2, &[1, 2]), data(0, &[]), data(2, &[3, 4])]].concat();
    assert_eq!(samples(&later), little_endian(&[10, 20, 11, 22, 14, 26]));
    let one = [format(STEREO_COMPRESSED), data(6, &[10, 0, 20, 0, 1, 2, 3, 4])];
    assert_eq!(samples(&one), samples(&later));
}

/// "Prove of the whole table that entries i and 256−i cancel for i from 1 to 255 except 128, which is
/// 1, and that 0 to 119 rise." Each entry, as the library has it: the step from 0.
#[test]
fn the_whole_table() {
    let table: Vec<i16> = (0..=255)
        .map(|byte| {
            let samples = samples(&[format(MONO_COMPRESSED), data(2, &[0, 0, byte])]);
            i16::from_le_bytes([samples[2], samples[3]])
        })
        .collect();
    assert_eq!((table[0], table[119], table[128], table[136]), (0, 32_589, 1, 29_973));
    for i in (1..256).filter(|&i| i != 128) {
        assert_eq!(table[i].wrapping_add(table[256 - i]), 0, "entries {i} and {}", 256 - i);
    }
    assert!(table[..120].windows(2).all(|two| two[0] < two[1]));
}

/// "What is written starts at the room's front, the answer gives its length, and the rest stays."
#[test]
fn rooms() {
    let film = film(&[format(MONO_16), data(2, &[1, 2, 3, 4])]);
    let mut state = open(&film, 0).expect("a header");
    while state.position < film.len() - 14 {
        let Ok(Step::Taken { state: next, bytes: 0, .. }) = step_in(&film, state, 0).0 else {
            panic!("not taken")
        };
        state = next;
    }
    for length in 0..4 {
        let (stepped, room) = step_in(&film, state, length);
        assert_eq!(stepped, Err(Refusal { error: Error::Room, block: 0 }));
        assert!(room.iter().all(|&byte| byte == 0x5A));
    }
    for length in [4, 5, 9] {
        let (stepped, room) = step_in(&film, state, length);
        assert!(matches!(stepped, Ok(Step::Taken { bytes: 4, .. })), "{stepped:?}");
        assert_eq!(room[..4], [1, 2, 3, 4]);
        assert!(room[4..].iter().all(|&byte| byte == 0x5A));
    }
}

/// A room that is always enough: the most samples that a word counts, of 16 bits.
#[test]
fn the_longest_packet() {
    let film = film(&[format(MONO_16), silence(0xFFFF)]);
    assert_eq!(hear(&film, 0).samples, [0; ROOM_BYTES]);
}

/// "Uncompressed sound is copied, one or two bytes a sample."
#[test]
fn uncompressed() {
    let bytes = [0, 255, 1, 128, 127, 3];
    for (flags, count) in [(MONO_8, 6), (STEREO_8, 6), (MONO_16, 3)] {
        assert_eq!(samples(&[format(flags), data(count, &bytes)]), bytes);
    }
    assert_eq!(samples(&[format(STEREO_16), data(2, &bytes[..4])]), bytes[..4]);
}

/// "09 gives its length in zero samples (128 in 8-bit) and leaves the last samples be."
#[test]
fn silences() {
    assert_eq!(samples(&[format(MONO_8), silence(3)]), [128; 3]);
    assert_eq!(samples(&[format(STEREO_16), silence(2)]), [0; 4]);
    let opcodes =
        [format(MONO_COMPRESSED), silence(1), data(1, &[9, 0]), silence(2), data(1, &[1])];
    assert_eq!(samples(&opcodes), little_endian(&[0, 9, 0, 0, 10]));
}

/// "Refusals: 17 chosen sound before 03, or a 03 both 8-bit and compressed (16 for a state that keeps
/// one), 18 data length not that of the sample count or an odd count in stereo, or a first compressed
/// 08 counting below the channels, 19 output room too small, in that order after 5."
#[test]
fn refusals() {
    assert_eq!(refused(&[data(1, &[1])]), 17);
    assert_eq!(refused(&[silence(1)]), 17);
    // Wrong lengths, too.
    assert_eq!(refused(&[data(1, &[])]), 17);
    for (flags, count, length) in [
        (MONO_8, 2, 1),
        (MONO_8, 2, 3),
        (MONO_16, 2, 3),
        (MONO_16, 2, 5),
        (STEREO_8, 3, 3),
        (STEREO_16, 1, 2),
        (MONO_COMPRESSED, 0, 0),
        (MONO_COMPRESSED, 0, 2),
        (MONO_COMPRESSED, 1, 1),
        (MONO_COMPRESSED, 1, 3),
        (STEREO_COMPRESSED, 0, 4),
        (STEREO_COMPRESSED, 1, 4),
        (STEREO_COMPRESSED, 3, 5),
    ] {
        let bytes = vec![0; length];
        assert_eq!(refused(&[format(flags), data(count, &bytes)]), 18, "{flags}, {count}");
    }
    assert_eq!(refused(&[format(STEREO_8), silence(3)]), 18);
    // 18 before 19: a count that is odd, in no room.
    let odd = film(&[format(STEREO_8), silence(3)]);
    let state = hear(&odd, 0).state;
    assert_eq!(step_in(&odd, state, 0).0, Err(Refusal { error: Error::SoundLength, block: 0 }));
    // 16, whatever the stream.
    for stream in [0, 15, 16, usize::MAX] {
        let kept = Sound { stream, has_format: true, compressed: true, ..Sound::default() };
        let state = State { sound: kept, ..open(HEADER, stream).expect("a header") };
        assert_eq!(step_in(HEADER, state, 0).0, Err(Refusal { error: Error::State, block: 0 }));
        // Before a 03 nothing of it is read.
        let unread = Sound { has_format: false, ..kept };
        let state = State { sound: unread, ..state };
        assert_eq!(step_in(HEADER, state, 0).0, Ok(Step::Ended { state }));
    }
}
