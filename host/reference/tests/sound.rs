//! Sound (02, W5; 003): formats, samples, streams, and the refusals 4, 5 and 16 to 19 met there with
//! their order. Every expected sample is worked out by hand from 003's table.

mod common;

use common::{chunk, film, hex, opcode, send, size, video, word, Lent};
use reference::film::{open, State, Stepped};
use reference::pictures::{play, Recording};
use reference::sound::{Sound, NO_STREAM};
use reference::Refusal;
use std::slice;

/// Flags of opcode 03.
const MONO_8: u16 = 0;
const STEREO_8: u16 = 1;
const MONO_16: u16 = 2;
const STEREO_16: u16 = 3;
const MONO_COMPRESSED: u16 = 6;
const STEREO_COMPRESSED: u16 = 7;

const UNCOMPRESSED: [u16; 4] = [MONO_8, STEREO_8, MONO_16, STEREO_16];
const ALL: [u16; 6] = [MONO_8, STEREO_8, MONO_16, STEREO_16, MONO_COMPRESSED, STEREO_COMPRESSED];

/// What the room holds before a step.
const ROOM: u8 = 0xA5;

/// Opcode 03 in version 1: a word that is not read, flags, rate, buffer length.
fn format(flags: u16) -> Vec<u8> {
    let front = [0xEEEE, flags, 22_050].map(u16::to_le_bytes).concat();
    opcode(0x03, 1, &[front, vec![0xEE; 4]].concat())
}

/// A body of 08 or 09: index, mask, count, data.
fn body(mask: u16, count: usize, data: &[u8]) -> Vec<u8> {
    [&word(0xEEEE)[..], &mask.to_le_bytes(), &word(count), data].concat()
}

/// Opcode 08 for stream 0.
fn data(count: usize, data: &[u8]) -> Vec<u8> {
    opcode(0x08, 0, &body(1, count, data))
}

/// Opcode 09 for stream 0.
fn silence(count: usize) -> Vec<u8> {
    opcode(0x09, 0, &body(1, count, &[]))
}

fn refused(number: u8) -> Stepped {
    Stepped::Refused(Refusal { number, block: 0 })
}

/// A film of one chunk with these opcodes, and the state at the last of them, for a stream.
fn at_last(stream: usize, opcodes: &[Vec<u8>]) -> (Vec<u8>, State) {
    let film = film(&[chunk(opcodes)]);
    let opened = open(&film, stream).expect("a good header");
    let mut lent = Lent { room: vec![ROOM; 1000], ..Lent::zero(64) };
    let state = lent.steps(&film, opened, opcodes.len());
    (film, state)
}

/// Takes one step with a room of so many bytes. Whatever it answers, bytes of the room that it did
/// not write stay, and palette, pictures and place are as they were.
#[track_caller]
fn step_with_room(film: &[u8], state: State, room: usize) -> (Stepped, Vec<u8>) {
    let mut lent = Lent { room: vec![ROOM; room], ..Lent::zero(64) };
    let stepped = lent.step(film, state, 312_000);
    let written = if let Stepped::Taken(_, _, bytes) = stepped { bytes } else { 0 };
    let bytes = lent.room[..written].to_vec();
    assert_eq!(lent.room[written..], vec![ROOM; room - written]);
    lent.room[..written].fill(ROOM);
    assert_eq!(lent, Lent { room: vec![ROOM; room], ..Lent::zero(64) });
    (stepped, bytes)
}

/// The answer to the last of these opcodes, for stream 0 with a room of so many bytes.
#[track_caller]
fn answer(opcodes: &[Vec<u8>], room: usize) -> Stepped {
    let (film, state) = at_last(0, opcodes);
    step_with_room(&film, state, room).0
}

/// What the last of these opcodes writes for stream 0, and the sound that it leaves.
#[track_caller]
fn written(opcodes: &[Vec<u8>]) -> (Vec<u8>, Sound) {
    let (film, state) = at_last(0, opcodes);
    match step_with_room(&film, state, 1000) {
        (Stepped::Taken(after, ..), bytes) => {
            assert_eq!(after, State { position: film.len(), sound: after.sound, ..state });
            (bytes, after.sound)
        }
        (other, _) => panic!("{other:?}"),
    }
}

/// The sound behind opcode 03 with these flags in version 1, for stream 0.
fn fresh(flags: u16) -> Sound {
    let (stereo, wide, compressed) = (flags & 1 != 0, flags & 2 != 0, flags & 4 != 0);
    Sound { has_format: true, stereo, wide, compressed, ..Sound::new(0) }
}

/// Opcodes up to the first data of a format: opcode 03 and, of compressed sound, a first 08.
fn begun(flags: u16) -> Vec<Vec<u8>> {
    match flags {
        MONO_COMPRESSED => vec![format(flags), data(1, &hex("00 10"))],
        STEREO_COMPRESSED => vec![format(flags), data(2, &hex("00 10 00 20"))],
        _ => vec![format(flags)],
    }
}

// --- opening and formats ---

/// The state keeps any stream number; of the sound nothing else is known.
#[test]
fn opening() {
    let film = film(&[]);
    for stream in [0, 7, 15, 16, 255, usize::MAX] {
        let state = open(&film, stream).expect("a good header");
        let sound = Sound {
            stream,
            has_format: false,
            stereo: false,
            wide: false,
            compressed: false,
            begun: false,
            left: 0,
            right: 0,
        };
        assert_eq!(state.sound, sound);
    }
}

/// 03 in both versions: bit 0 stereo, bit 1 16-bit, bit 2 compressed in version 1 alone. The other
/// bits, rate, buffer length and the first word are not read.
#[test]
fn formats() {
    for (version, flags, [stereo, wide, compressed]) in [
        (0, 0, [false, false, false]),
        (0, 1, [true, false, false]),
        (0, 2, [false, true, false]),
        (0, 3, [true, true, false]),
        (0, 4, [false, false, false]),
        (0, 5, [true, false, false]),
        (0, 6, [false, true, false]),
        (0, 7, [true, true, false]),
        (1, 0, [false, false, false]),
        (1, 1, [true, false, false]),
        (1, 2, [false, true, false]),
        (1, 3, [true, true, false]),
        (1, 6, [false, true, true]),
        (1, 7, [true, true, true]),
    ] {
        let expected = Sound { has_format: true, stereo, wide, compressed, ..Sound::new(0) };
        for (flags, rest) in [(flags, 0x00), (flags | 0xFFF8, 0xFF), (flags | 0x0108, 0x22)] {
            let front = [&[rest; 2], &u16::to_le_bytes(flags)[..]].concat();
            let body = [front, vec![rest; 4 + 2 * usize::from(version)]].concat();
            let (bytes, sound) = written(&[opcode(0x03, version, &body)]);
            assert_eq!(bytes, [], "version {version}, flags {flags:x}");
            assert_eq!(sound, expected, "version {version}, flags {flags:x}");
        }
    }
}

/// 17: a 03 both 8-bit and compressed, whatever the other bits. In version 0 there is none such.
#[test]
fn number_17_format() {
    for flags in [4, 5, 0xFFFC, 0xFFFD] {
        assert_eq!(answer(&[format(flags)], 1000), refused(17));
        // Also where a format is known.
        assert_eq!(answer(&[format(STEREO_COMPRESSED), format(flags)], 1000), refused(17));
    }
    // 5 comes before 17.
    for length in [9, 11] {
        let body = [&[0, 0, 4, 0][..], &vec![0; length - 4]].concat();
        assert_eq!(answer(&[opcode(0x03, 1, &body)], 0), refused(5));
    }
}

/// 4 and 5 of 03: versions 0 and 1, of 8 and 10 bytes. 4 comes before 5.
#[test]
fn format_versions_and_lengths() {
    for version in 0..=255 {
        for length in 0..16 {
            let stepped = answer(&[opcode(0x03, version, &vec![2; length])], 0);
            match (version, length) {
                (0, 8) | (1, 10) => assert!(matches!(stepped, Stepped::Taken(_, 0, 0))),
                (0 | 1, _) => assert_eq!(stepped, refused(5), "{version}, {length}"),
                _ => assert_eq!(stepped, refused(4), "{version}, {length}"),
            }
        }
    }
}

/// 4 and 5 of 08 and 09: version 0, at least 6 bytes and exactly 6. They come before the mask, which
/// is 0 here, and before 17.
#[test]
fn packet_versions_and_lengths() {
    for mask in [0x00, 0xFF] {
        for version in 0..=255 {
            for length in 0..12 {
                let body = vec![mask; length];
                let taken = |stepped| match mask {
                    0x00 => assert!(matches!(stepped, Stepped::Taken(_, 0, 0))),
                    _ => assert_eq!(stepped, refused(17)),
                };
                let stepped = answer(&[opcode(0x08, version, &body)], 0);
                match (version, length) {
                    (0, 6..) => taken(stepped),
                    (0, _) => assert_eq!(stepped, refused(5), "08, {length}"),
                    _ => assert_eq!(stepped, refused(4), "08, {version}, {length}"),
                }
                let stepped = answer(&[opcode(0x09, version, &body)], 0);
                match (version, length) {
                    (0, 6) => taken(stepped),
                    (0, _) => assert_eq!(stepped, refused(5), "09, {length}"),
                    _ => assert_eq!(stepped, refused(4), "09, {version}, {length}"),
                }
            }
        }
    }
}

// --- streams ---

/// A stream number above 15: the three are passed over unread, in any version and length.
#[test]
fn passed_over() {
    for stream in [16, 17, 31, 32, 64, 65_536, usize::MAX] {
        for kind in [0x03, 0x08, 0x09] {
            for (version, length) in [(0, 0), (0, 5), (0, 6), (0, 8), (1, 10), (2, 7), (255, 300)] {
                let (film, state) = at_last(stream, &[opcode(kind, version, &vec![0xFF; length])]);
                let after = State { position: film.len(), ..state };
                let (stepped, _) = step_with_room(&film, state, 1000);
                assert_eq!(stepped, Stepped::Taken(after, 0, 0), "{stream}, {kind}, {version}");
            }
        }
    }
}

/// Each stream hears the packets with its bit, and those alone.
#[test]
fn masks() {
    for stream in 0..16 {
        let formatted = format(MONO_8);
        for bit in 0..16 {
            for (kind, bytes) in [(0x08, &[7, 8, 9][..]), (0x09, &[128; 3])] {
                let data = if kind == 0x08 { bytes } else { &[] };
                for (mask, heard) in [(1 << bit, bit == stream), (!(1 << bit), bit != stream)] {
                    let packet = opcode(kind, 0, &body(mask, 3, data));
                    let (film, state) = at_last(stream, &[formatted.clone(), packet]);
                    let (stepped, written) = step_with_room(&film, state, 1000);
                    let after = State { position: film.len(), ..state };
                    let expected = if heard { bytes } else { &[] };
                    assert_eq!(
                        stepped,
                        Stepped::Taken(after, 0, expected.len()),
                        "{stream}, {mask:x}"
                    );
                    assert_eq!(written, expected, "{stream}, {mask:x}");
                }
            }
        }
    }
}

/// Without its bit a packet gets no further test: not for a format (17), nor for a count or data
/// (18), nor for the room (19). It does not count as a first one either.
#[test]
fn other_streams() {
    let other = |kind, count, data: &[u8]| opcode(kind, 0, &body(0xFFFE, count, data));
    for packet in [other(0x08, 3, &[1, 2]), other(0x08, 0, &[]), other(0x09, 65_535, &[])] {
        assert!(matches!(answer(slice::from_ref(&packet), 0), Stepped::Taken(_, 0, 0)));
        for flags in ALL {
            let mut opcodes = vec![format(flags), packet.clone()];
            assert!(matches!(answer(&opcodes, 0), Stepped::Taken(_, 0, 0)));
            opcodes.push(send());
            assert_eq!(written(&opcodes).1, fresh(flags));
        }
    }
    let opcodes = [format(MONO_COMPRESSED), other(0x08, 1, &[1, 2]), data(1, &hex("34 12"))];
    assert_eq!(written(&opcodes).0, hex("34 12"));
}

// --- uncompressed ---

/// Samples are copied: one or two bytes each, left and right in turn.
#[test]
fn uncompressed() {
    let bytes = hex("00 01 7f 80 ff fe 12 34");
    for (flags, count) in [(MONO_8, 8), (STEREO_8, 8), (MONO_16, 4), (STEREO_16, 4)] {
        let (copied, sound) = written(&[format(flags), data(count, &bytes)]);
        assert_eq!((copied, sound), (bytes.clone(), fresh(flags)));
        // A second packet is like the first.
        let (copied, sound) = written(&[format(flags), data(count, &bytes), data(count, &bytes)]);
        assert_eq!((copied, sound), (bytes.clone(), fresh(flags)));
    }
    // An odd number of samples in mono.
    assert_eq!(written(&[format(MONO_8), data(3, &[1, 2, 3])]).0, [1, 2, 3]);
    assert_eq!(written(&[format(MONO_16), data(1, &[1, 2])]).0, [1, 2]);
    for flags in UNCOMPRESSED {
        assert_eq!(written(&[format(flags), data(0, &[])]), (vec![], fresh(flags)));
    }
}

// --- compressed ---

/// Mono: the start word, then steps. 003's entry 0x88 (136) is 29973, 0x78 (120) is -29973, 0x77
/// (119) is 32589, 0x89 (137) is -32589, 0x7F and 0xFF are -1, 0x80 and 0x81 are 1, 0x2C (44) is 47.
#[test]
fn compressed_mono() {
    // 1000, then 0, 1, 47, -1.
    let (bytes, sound) = written(&[format(MONO_COMPRESSED), data(5, &hex("e8 03  00 01 2c ff"))]);
    assert_eq!(bytes, hex("e8 03  e8 03  e9 03  18 04  17 04"));
    assert_eq!(sound, Sound { begun: true, left: 1047, ..fresh(MONO_COMPRESSED) });

    // Wrap-around. 32767 + 29973 is 62740, so -2796; 29973 less is 32767 again; 1 more is -32768, 1
    // less 32767; 32589 more is 65356, so -180; 32589 less 32767.
    let data_bytes = hex("ff 7f  88 78 80 ff 77 89");
    let (bytes, sound) = written(&[format(MONO_COMPRESSED), data(7, &data_bytes)]);
    assert_eq!(bytes, hex("ff 7f  14 f5  ff 7f  00 80  ff 7f  4c ff  ff 7f"));
    assert_eq!(sound, Sound { begun: true, left: 0x7FFF, ..fresh(MONO_COMPRESSED) });

    // The other way round: -32768 - 29973 is -62741, so 2795; -32768 - 1 is 32767.
    let (bytes, _) = written(&[format(MONO_COMPRESSED), data(4, &hex("00 80  78 88 7f"))]);
    assert_eq!(bytes, hex("00 80  eb 0a  00 80  ff 7f"));

    // The start word alone.
    assert_eq!(written(&[format(MONO_COMPRESSED), data(1, &hex("34 12"))]).0, hex("34 12"));
}

/// Stereo: left's start word, right's, then steps of left and right in turn. Neither channel's
/// samples are read for the other.
#[test]
fn compressed_stereo() {
    // Left 100, 101, 148; right -100, -101, -148.
    let data_bytes = hex("64 00 9c ff  01 ff  2c d4");
    let (bytes, sound) = written(&[format(STEREO_COMPRESSED), data(6, &data_bytes)]);
    assert_eq!(bytes, hex("64 00 9c ff  65 00 9b ff  94 00 6c ff"));
    let last = Sound { begun: true, left: 148, right: 0xFF6C, ..fresh(STEREO_COMPRESSED) };
    assert_eq!(sound, last);
    // The start words alone.
    let (bytes, sound) = written(&[format(STEREO_COMPRESSED), data(2, &hex("01 02 03 04"))]);
    assert_eq!(bytes, hex("01 02 03 04"));
    assert_eq!(sound, Sound { left: 0x0201, right: 0x0403, ..last });
}

/// Later packets have no start words and go on from the last sample of each channel.
#[test]
fn later_packets() {
    // 4096; then 4097, 4099; then none; then 4099.
    let mono = [format(MONO_COMPRESSED), data(1, &hex("00 10")), data(2, &[1, 2]), data(0, &[])];
    assert_eq!(written(&mono[..3]).0, hex("01 10 03 10"));
    let kept = Sound { begun: true, left: 4099, ..fresh(MONO_COMPRESSED) };
    assert_eq!(written(&mono), (vec![], kept));
    let (bytes, sound) = written(&[&mono[..], &[data(1, &[0])]].concat());
    assert_eq!((bytes, sound), (hex("03 10"), kept));

    // Left 4096, 4097, 4100; right 8192, 8194, 8190.
    let stereo = [
        format(STEREO_COMPRESSED),
        data(2, &hex("00 10 00 20")),
        data(2, &[1, 2]),
        data(0, &[]),
        data(2, &[3, 0xFC]),
    ];
    assert_eq!(written(&stereo[..3]).0, hex("01 10 02 20"));
    let (bytes, sound) = written(&stereo);
    assert_eq!(bytes, hex("04 10 fe 1f"));
    assert_eq!(sound, Sound { begun: true, left: 4100, right: 8190, ..fresh(STEREO_COMPRESSED) });
}

/// All bytes in turn lead from s to s + 1: steps i and 256 - i cancel, 0 is 0, and 128 is 1.
#[test]
fn every_step() {
    let steps: Vec<u8> = (0..=255).collect();
    let data_bytes = [hex("34 12"), steps].concat();
    let (bytes, sound) = written(&[format(MONO_COMPRESSED), data(257, &data_bytes)]);
    assert_eq!((bytes.len(), sound.left), (514, 0x1235));
}

/// One packet cut anywhere into two gives the same samples.
#[test]
fn cut_packets() {
    let steps = hex("00 11 22 33 44 55 66 77 88 99 aa bb cc dd ee ff");
    for (flags, words, channels) in
        [(MONO_COMPRESSED, "ff 7f", 1), (STEREO_COMPRESSED, "ff 7f 00 80", 2)]
    {
        let first = |steps: &[u8]| data(channels + steps.len(), &[&hex(words), steps].concat());
        let (whole, last) = written(&[format(flags), first(&steps)]);
        for cut in (0..=steps.len()).step_by(channels) {
            let opcodes =
                [format(flags), first(&steps[..cut]), data(steps.len() - cut, &steps[cut..])];
            let (start, _) = written(&opcodes[..2]);
            let (end, sound) = written(&opcodes);
            assert_eq!(([start, end].concat(), sound), (whole.clone(), last), "{cut}");
        }
    }
}

/// A 03 starts afresh, also one with the same flags: the next compressed 08 is a first one.
#[test]
fn afresh() {
    for before in ALL {
        for after in ALL {
            let mut opcodes = begun(before);
            opcodes.push(format(after));
            assert_eq!(written(&opcodes), (vec![], fresh(after)), "{before}, {after}");
            let (packet, bytes) = match after {
                MONO_COMPRESSED => (data(2, &hex("00 40 01")), hex("00 40 01 40")),
                STEREO_COMPRESSED => {
                    (data(4, &hex("00 40 00 50 01 02")), hex("00 40 00 50 01 40 02 50"))
                }
                MONO_8 | STEREO_8 => (data(2, &[1, 2]), vec![1, 2]),
                _ => (data(2, &[1, 2, 3, 4]), vec![1, 2, 3, 4]),
            };
            opcodes.push(packet);
            assert_eq!(written(&opcodes).0, bytes, "{before}, {after}");
        }
    }
}

// --- silence ---

/// 09: so many zero samples, 128 in 8-bit sound. The last samples stay, and so does what the next 08
/// goes on from.
#[test]
fn silent_packets() {
    for (flags, bytes) in [
        (MONO_8, vec![128; 4]),
        (STEREO_8, vec![128; 4]),
        (MONO_16, vec![0; 8]),
        (STEREO_16, vec![0; 8]),
        (MONO_COMPRESSED, vec![0; 8]),
        (STEREO_COMPRESSED, vec![0; 8]),
    ] {
        assert_eq!(written(&[format(flags), silence(4)]), (bytes, fresh(flags)));
        assert_eq!(written(&[format(flags), silence(0)]), (vec![], fresh(flags)));
    }
    assert_eq!(written(&[format(MONO_8), silence(3)]).0, [128; 3]);
    // Before the first 08, which still has its start word, and between 08s.
    let opcodes =
        [format(MONO_COMPRESSED), silence(3), data(2, &hex("00 10 01")), silence(3), data(1, &[1])];
    assert_eq!(written(&opcodes[..3]).0, hex("00 10 01 10"));
    let kept = Sound { begun: true, left: 4097, ..fresh(MONO_COMPRESSED) };
    assert_eq!(written(&opcodes[..4]), (vec![0; 6], kept));
    assert_eq!(written(&opcodes).0, hex("02 10"));
}

/// The longest there are: 65,535 samples of silence are 131,070 bytes; and the longest opcode that a
/// chunk holds has a body of 65,531 bytes, so of compressed sound a start word and 65,523 steps.
#[test]
fn longest() {
    let (silent, state) = at_last(0, &[format(MONO_16), silence(65_535)]);
    assert_eq!(step_with_room(&silent, state, 131_069).0, refused(19));
    let (stepped, bytes) = step_with_room(&silent, state, 131_070);
    assert!(matches!(stepped, Stepped::Taken(_, 0, 131_070)));
    assert_eq!(bytes, vec![0; 131_070]);

    let packet = data(65_524, &[hex("00 10"), vec![0; 65_523]].concat());
    assert_eq!(packet.len(), 65_535);
    let long = film(&[chunk(&[format(MONO_COMPRESSED)]), chunk(&[packet])]);
    let opened = open(&long, 0).expect("a good header");
    let state = Lent::zero(0).steps(&long, opened, 3);
    let (stepped, bytes) = step_with_room(&long, state, 131_048);
    assert!(matches!(stepped, Stepped::Taken(_, 0, 131_048)), "{stepped:?}");
    assert_eq!(bytes, hex("00 10").repeat(65_524));
}

// --- 17, 18, 19 ---

/// 17: chosen sound before 03, whatever else is wrong with it: count or data (18), room (19).
#[test]
fn number_17_before_03() {
    for room in [0, 1000] {
        for (count, bytes) in [(0, &[][..]), (1, &[1]), (1, &[1, 2]), (3, &[1]), (65_535, &[])] {
            assert_eq!(answer(&[data(count, bytes)], room), refused(17));
            assert_eq!(answer(&[silence(count)], room), refused(17));
        }
    }
}

/// 18: data a byte short or long, in every format, of a first and of a later packet. It comes before
/// 19.
#[test]
fn number_18_data_length() {
    // For each format: opcodes in front, a count, and its bytes of data.
    let first = ALL.map(|flags| (vec![format(flags)], flags));
    let later = ALL.map(|flags| (begun(flags), flags));
    for (is_first, (front, flags)) in
        first.map(|case| (true, case)).into_iter().chain(later.map(|case| (false, case)))
    {
        let length = match (flags, is_first) {
            (MONO_8 | STEREO_8, _) => 4,
            (MONO_16 | STEREO_16, _) => 8,
            (MONO_COMPRESSED, true) => 5,
            (STEREO_COMPRESSED, true) => 6,
            _ => 4,
        };
        for wrong in (0..12).filter(|&wrong| wrong != length) {
            for room in [0, 1000] {
                let opcodes = [&front[..], &[data(4, &vec![1; wrong])]].concat();
                assert_eq!(answer(&opcodes, room), refused(18), "{flags}, {is_first}, {wrong}");
            }
        }
        let opcodes = [&front[..], &[data(4, &vec![1; length])]].concat();
        assert!(matches!(answer(&opcodes, 8), Stepped::Taken(..)), "{flags}, {is_first}");
    }
}

/// 18: an odd count in stereo, though the data are as long as the count says; of 09, too.
#[test]
fn number_18_odd_count() {
    for (flags, length_of_3) in [(STEREO_8, 3), (STEREO_16, 6), (STEREO_COMPRESSED, 3)] {
        for room in [0, 131_070] {
            for front in [begun(flags), vec![format(flags)]] {
                for count in [1, 3, 65_535] {
                    let opcodes = [&front[..], &[silence(count)]].concat();
                    assert_eq!(answer(&opcodes, room), refused(18));
                }
            }
            let opcodes = [begun(flags), vec![data(3, &vec![1; length_of_3])]].concat();
            assert_eq!(answer(&opcodes, room), refused(18));
        }
    }
    // The first compressed one: 4 bytes of start words and 1 byte are 3 samples.
    let first = [format(STEREO_COMPRESSED), data(3, &hex("00 10 00 20 01"))];
    assert_eq!(answer(&first, 1000), refused(18));
}

/// 18: a first compressed 08 that counts below the channels, with and without start words. A later
/// one may count 0.
#[test]
fn number_18_below_the_channels() {
    for room in [0, 1000] {
        for length in 0..6 {
            let bytes = vec![0; length];
            for (flags, count) in
                [(MONO_COMPRESSED, 0), (STEREO_COMPRESSED, 0), (STEREO_COMPRESSED, 1)]
            {
                assert_eq!(answer(&[format(flags), data(count, &bytes)], room), refused(18));
            }
        }
    }
    for flags in [MONO_COMPRESSED, STEREO_COMPRESSED] {
        let opcodes = [begun(flags), vec![data(0, &[])]].concat();
        assert!(matches!(answer(&opcodes, 0), Stepped::Taken(_, 0, 0)));
    }
}

/// 19: a room that is a byte short, and none. One that is just enough is. Where it is refused
/// nothing has changed, so that a first 08 is still the first when the room is larger.
#[test]
fn number_19_room() {
    for (opcodes, needed) in [
        (vec![format(MONO_8), data(3, &[1, 2, 3])], 3),
        (vec![format(STEREO_8), data(2, &[1, 2])], 2),
        (vec![format(MONO_16), data(1, &[1, 2])], 2),
        (vec![format(STEREO_16), data(2, &[1, 2, 3, 4])], 4),
        (vec![format(MONO_COMPRESSED), data(2, &hex("00 10 01"))], 4),
        (vec![format(STEREO_COMPRESSED), data(2, &hex("00 10 00 20"))], 4),
        ([begun(MONO_COMPRESSED), vec![data(3, &[1, 1, 1])]].concat(), 6),
        ([begun(STEREO_COMPRESSED), vec![data(2, &[1, 1])]].concat(), 4),
        (vec![format(MONO_8), silence(5)], 5),
        (vec![format(STEREO_8), silence(2)], 2),
        (vec![format(MONO_16), silence(5)], 10),
        (vec![format(STEREO_COMPRESSED), silence(2)], 4),
    ] {
        let (film, state) = at_last(0, &opcodes);
        for room in [0, 1, needed - 1] {
            assert_eq!(step_with_room(&film, state, room).0, refused(19), "{needed}, {room}");
        }
        let (exact, bytes) = step_with_room(&film, state, needed);
        assert!(matches!(exact, Stepped::Taken(_, 0, written) if written == needed), "{exact:?}");
        assert_eq!(step_with_room(&film, state, needed + 9), (exact, bytes));
    }
    // What writes nothing needs no room.
    for flags in UNCOMPRESSED {
        assert!(matches!(answer(&[format(flags), data(0, &[])], 0), Stepped::Taken(_, 0, 0)));
        assert!(matches!(answer(&[format(flags), silence(0)], 0), Stepped::Taken(_, 0, 0)));
    }
}

// --- 16, and what nothing reads ---

/// 16: a state that keeps a format both 8-bit and compressed, whatever its stream and wherever it
/// is. It comes before 8.
#[test]
fn number_16_sound() {
    let film = film(&[chunk(&[data(0, &[])])]);
    for stream in [0, 15, 16, usize::MAX] {
        let opened = open(&film, stream).expect("a good header");
        for (position, chunk_end) in [(26, 26), (30, film.len()), (film.len(), film.len())] {
            for (stereo, begun) in [(false, false), (true, false), (false, true), (true, true)] {
                let sound = Sound {
                    has_format: true,
                    stereo,
                    wide: false,
                    compressed: true,
                    begun,
                    ..opened.sound
                };
                let state = State { position, chunk_end, sound, ..opened };
                let mut lent = Lent::zero(0);
                assert_eq!(lent.step(&film, state, 0), refused(16), "{state:?}");
                lent.palette.clear();
                assert_eq!(lent.step(&film, state, 0), refused(16), "{state:?}");
                // Not one that is 16-bit, and not where no format is known.
                for sound in [Sound { wide: true, ..sound }, Sound { has_format: false, ..sound }] {
                    assert_eq!(lent.step(&film, State { sound, ..state }, 0), refused(8));
                }
            }
        }
    }
}

/// Where no format is known, a step that moves the state makes of the other fields 0, whatever it
/// takes; one that is refused, unfinished or at the end leaves them.
#[test]
fn unread_fields() {
    let unread = Sound {
        has_format: false,
        stereo: true,
        wide: false,
        compressed: true,
        begun: true,
        left: 77,
        right: 0xFFFF,
        ..Sound::new(3)
    };
    let frame = [size(1, 1), opcode(0x0F, 0, &[0x0E]), video(&[7])];
    let opcodes = [
        &frame[..],
        &[send(), opcode(0x04, 0, &[]), opcode(0x0C, 0, &[0; 4])],
        &[data(0, &[]), opcode(0x09, 0, &body(0xFFF7, 1, &[])), opcode(0x00, 0, &[])],
    ];
    let film = film(&[chunk(&opcodes.concat())]);
    let mut state = open(&film, 3).expect("a good header");
    let mut lent = Lent::zero(64);
    for number in 0..10 {
        state.sound = unread;
        state = match lent.step(&film, state, 65) {
            Stepped::Taken(after, 0 | 1, 0) | Stepped::Whole(after, 65, _) => after,
            other => panic!("step {number}: {other:?}"),
        };
        assert_eq!(state.sound, Sound::new(3), "step {number}");
    }
    let at_end = State { sound: unread, ..state };
    assert_eq!(lent.step(&film, at_end, 0), Stepped::Ended(at_end));
    let (film, state) = at_last(3, &frame);
    let at_video = State { sound: unread, ..state };
    let mut lent = Lent::zero(64);
    let stepped = lent.step(&film, at_video, 10);
    assert!(matches!(stepped, Stepped::Unfinished(same, 10, _) if same == at_video));
}

/// Where a format is known, the fields stay as they are in every step but those of 03 and of a
/// compressed 08, which sets the samples of its channels.
#[test]
fn kept_fields() {
    for flags in ALL {
        let kept = Sound { begun: true, left: 0x1234, right: 0x5678, ..fresh(flags) };
        let frame = [size(1, 1), opcode(0x0F, 0, &[0x0E]), video(&[7])];
        let others = [&frame[..], &[send(), silence(2), opcode(0x00, 0, &[])]].concat();
        let film = film(&[chunk(&others)]);
        let opened = open(&film, 0).expect("a good header");
        let mut lent = Lent { room: vec![0; 4], ..Lent::zero(64) };
        let state = lent.steps(&film, State { sound: kept, ..opened }, 7);
        assert_eq!(state.sound, kept);
        assert_eq!(lent.step(&film, state, 0), Stepped::Ended(state));
    }
    // Mono leaves the right channel's sample; uncompressed data leave both, and the mark.
    for (flags, packet, after) in [
        (MONO_COMPRESSED, data(2, &hex("00 10 01")), (true, 4097, 0x5678)),
        (STEREO_COMPRESSED, data(2, &hex("00 10 00 20")), (true, 4096, 8192)),
        (MONO_16, data(1, &[1, 2]), (false, 0x1234, 0x5678)),
        (STEREO_8, data(2, &[1, 2]), (false, 0x1234, 0x5678)),
    ] {
        let (film, state) = at_last(0, &[format(flags), packet]);
        let sound = Sound { left: 0x1234, right: 0x5678, ..state.sound };
        let (stepped, _) = step_with_room(&film, State { sound, ..state }, 1000);
        let Stepped::Taken(State { sound, .. }, ..) = stepped else { panic!("{stepped:?}") };
        assert_eq!((sound.begun, sound.left, sound.right), after, "{flags}");
    }
}

/// A state keeps its sound while frames are drawn and sent, and sound leaves the frame's map, place
/// and pictures: a film with both gives what each gives alone.
#[test]
fn between_pictures() {
    let opcodes = [
        format(MONO_COMPRESSED),
        size(1, 1),
        data(2, &hex("00 10 01")),
        opcode(0x0F, 0, &[0x0E]),
        data(1, &[1]),
        video(&[7]),
        silence(1),
        send(),
        data(1, &[1]),
    ];
    let played = play(&film(&[chunk(&opcodes)]), 0);
    let samples = hex("00 10 01 10  02 10  00 00  03 10");
    let recording = Recording { stereo: false, wide: true, rate: 22_050, samples };
    assert_eq!(played.recordings, [recording]);
    assert_eq!(
        played.pictures,
        [[&b"P6\n# rows 0 to 0\n# at 0 us\n8 8\n255\n"[..], &[0; 192]].concat()]
    );
    assert_eq!(played.refusal, None);
}

/// A 03 begins another recording where channels, bits or rate differ; the samples before a refusal
/// stay; with no stream there is none.
#[test]
fn recordings() {
    let with_rate = |flags: u16, rate: u16| {
        let words = [0, flags, rate, 0, 0].map(u16::to_le_bytes).concat();
        opcode(0x03, 1, &words)
    };
    let opcodes = [
        with_rate(MONO_8, 8000),
        data(1, &[1]),
        with_rate(MONO_8, 8000),
        data(1, &[2]),
        with_rate(MONO_8, 11_025),
        data(1, &[3]),
        with_rate(STEREO_8, 11_025),
        data(2, &[4, 5]),
        with_rate(STEREO_16, 11_025),
        data(2, &[6, 7, 8, 9]),
        with_rate(STEREO_COMPRESSED, 11_025),
        data(2, &[10, 11, 12, 13]),
        data(1, &[1]),
    ];
    let film = film(&[chunk(&opcodes)]);
    let recording = |stereo, wide, rate, samples: &[u8]| Recording {
        stereo,
        wide,
        rate,
        samples: samples.to_vec(),
    };
    let played = play(&film, 0);
    let expected = [
        recording(false, false, 8000, &[1, 2]),
        recording(false, false, 11_025, &[3]),
        recording(true, false, 11_025, &[4, 5]),
        recording(true, true, 11_025, &[6, 7, 8, 9, 10, 11, 12, 13]),
    ];
    assert_eq!(played.recordings, expected);
    assert_eq!((played.position, played.refusal), (film.len() - 11, Some(Refusal::new(18))));
    assert_eq!(play(&film, NO_STREAM).recordings, []);
}
