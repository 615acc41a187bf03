//! A film without what the player passes over: 02's rules for W14, and the points that it leaves to
//! reading.

mod common;

use common::{chunk, film, header, hex, opcode, send, size, video, word};
use reference::sound::NO_STREAM;
use reference::strip::strip;
use reference::Refusal;

fn stripped(film: &[u8], stream: usize) -> Vec<u8> {
    let left = strip(film, stream, usize::MAX).expect("a film without scratches");
    assert!(left.len() <= film.len(), "never longer");
    assert_eq!(strip(&left, stream, left.len()), Ok(left.clone()), "twice changes nothing");
    left
}

fn refused(number: u8) -> Result<Vec<u8>, Refusal> {
    Err(Refusal { number, block: 0 })
}

fn end() -> Vec<u8> {
    opcode(0x00, 0, &[])
}

/// Opcode 08 for the streams of a mask.
fn sound(mask: usize) -> Vec<u8> {
    opcode(0x08, 0, &[&word(1)[..], &word(mask), &word(2), &[7, 8]].concat())
}

/// Opcode 09 for the streams of a mask.
fn silence(mask: usize) -> Vec<u8> {
    opcode(0x09, 0, &[&word(1)[..], &word(mask), &word(2)].concat())
}

fn format() -> Vec<u8> {
    opcode(0x03, 0, &hex("00 00 00 00 22 56 00 10"))
}

#[test]
fn passed_over_opcodes_go_whatever_the_stream() {
    for stream in [0, 15, NO_STREAM, usize::MAX] {
        for kind in [0x02, 0x04, 0x0A, 0x12, 0x13, 0x14, 0x15] {
            let (before, behind) = (size(1, 1), send());
            let passed = opcode(kind, 9, &[1, 2, 3]);
            let film_of = |opcodes: &[Vec<u8>]| film(&[chunk(opcodes)]);
            let long = film_of(&[before.clone(), passed.clone(), behind.clone(), passed]);
            assert_eq!(stripped(&long, stream), film_of(&[before, behind]), "{kind:02X}");
        }
    }
}

#[test]
fn acted_on_opcodes_stay() {
    let all = [
        size(1, 1),
        send(),
        opcode(0x0B, 0, &[0; 6]),
        opcode(0x0C, 0, &[0; 4]),
        opcode(0x0D, 0, &[0; 32]),
        opcode(0x0F, 0, &[]),
        video(&[1, 2]),
        opcode(0x01, 0, &[]),
    ];
    let film = film(&[chunk(&all), chunk(&[opcode(0x01, 0, &[])]), chunk(&[end()])]);
    for stream in [0, NO_STREAM] {
        assert_eq!(stripped(&film, stream), film);
    }
}

#[test]
fn sound_by_the_stream() {
    for stream in 0..18 {
        for bit in 0..16 {
            let mask = 1 << bit;
            let film_of = |opcodes: &[Vec<u8>]| film(&[chunk(opcodes)]);
            let long =
                film_of(&[format(), sound(mask), silence(mask), sound(!mask & 0xFFFF), send()]);
            let left = match (stream < 16, stream == bit) {
                (false, _) => vec![send()],
                (true, true) => vec![format(), sound(mask), silence(mask), send()],
                (true, false) => vec![format(), sound(!mask & 0xFFFF), send()],
            };
            assert_eq!(stripped(&long, stream), film_of(&left), "stream {stream}, bit {bit}");
        }
        let nobody = film(&[chunk(&[sound(0), silence(0)])]);
        assert_eq!(stripped(&nobody, stream), header());
    }
}

#[test]
fn empty_chunks_go() {
    let (timer, good) = (opcode(0x02, 0, &[1]), chunk(&[send()]));
    let long = film(&[chunk(&[]), chunk(&[timer.clone()]), good.clone(), chunk(&[timer])]);
    assert_eq!(stripped(&long, 0), film(&[good]));
    assert_eq!(stripped(&header(), 0), header());
}

#[test]
fn the_type_stays_and_the_length_is_fixed() {
    let long = [header(), hex("0c 00 34 12  00 00 02 00  04 00 07 00 01 02 03 04")].concat();
    let left = [header(), hex("08 00 34 12  04 00 07 00 01 02 03 04")].concat();
    assert_eq!(stripped(&long, NO_STREAM), left);
}

#[test]
fn what_follows_00_goes_unread() {
    let last = chunk(&[send(), end()]);
    for tail in [chunk(&[send()]), chunk(&[opcode(0x06, 0, &[])]), hex("ff"), hex("ff ff 00 00")] {
        let long = [film(std::slice::from_ref(&last)), tail].concat();
        assert_eq!(stripped(&long, 0), film(std::slice::from_ref(&last)));
    }
}

#[test]
fn number_1_comes_first() {
    for length in 0..26 {
        assert_eq!(strip(&header()[..length], 0, 0), refused(1));
    }
    let mut changed = header();
    changed[25] ^= 1;
    assert_eq!(strip(&changed, NO_STREAM, usize::MAX), refused(1));
}

#[test]
fn the_first_of_2_to_5_comes_before_19() {
    let bad = [
        (hex("ff ff 00 00"), 2),
        (chunk(&[hex("00 00 04")]), 3),
        (chunk(&[opcode(0x06, 0, &[])]), 4),
        (chunk(&[opcode(0x07, 0, &[])]), 5),
    ];
    let good = chunk(&[size(1, 1)]);
    for (first, number) in &bad {
        for (second, _) in &bad {
            let film = film(&[good.clone(), first.clone(), second.clone()]);
            assert_eq!(strip(&film, 0, 0), refused(*number));
        }
    }
}

/// As W13 tests: 0C and 0D by their content, 7 not at all, sound whatever the stream.
#[test]
fn tests_are_those_of_w13() {
    let of = |kind, version, body: &[u8], stream| {
        let film = film(&[chunk(&[opcode(kind, version, body)])]);
        strip(&film, stream, usize::MAX).err().map(|refusal| refusal.number)
    };
    for stream in [0, 3, NO_STREAM] {
        assert_eq!(of(0x0C, 0, &[0, 0, 1, 0, 64, 64], stream), Some(5));
        assert_eq!(of(0x0C, 0, &[255, 255, 1, 0, 64, 64, 64], stream), None);
        assert_eq!(of(0x0D, 0, &[1; 32], stream), Some(5));
        assert_eq!(of(0x11, 0, &[0; 13], stream), Some(5));
        assert_eq!(of(0x03, 2, &[0; 12], stream), Some(4));
        assert_eq!(of(0x08, 0, &[0; 5], stream), Some(5));
        assert_eq!(of(0x09, 1, &[0; 6], stream), Some(4));
    }
}

#[test]
fn number_19_is_last() {
    let long = film(&[chunk(&[send(), opcode(0x02, 0, &[1, 2])])]);
    let bytes = 26 + 4 + 8;
    assert_eq!(strip(&long, 0, bytes).map(|left| left.len()), Ok(bytes));
    assert_eq!(strip(&long, 0, bytes - 1), refused(19));
    assert_eq!(strip(&header(), 0, 26), Ok(header()));
    assert_eq!(strip(&header(), 0, 25), refused(19));
}
