//! The sentences of document 02's W14, in its order, run on the proved library. The expected values are
//! worked out by hand from the documents.

use mve::{strip, Error, Event, Memory, Pictures, Player, NO_STREAM, PALETTE_BYTES, ROOM_BYTES};

const HEADER: &[u8; 26] = b"Interplay MVE File\x1A\0\x1A\0\0\x01\x33\x11";

fn opcode(kind: u8, version: u8, body: &[u8]) -> Vec<u8> {
    [&(body.len() as u16).to_le_bytes()[..], &[kind, version], body].concat()
}

fn chunk(kind: u16, opcodes: &[Vec<u8>]) -> Vec<u8> {
    let body = opcodes.concat();
    [&[body.len() as u16, kind].map(u16::to_le_bytes).concat()[..], &body].concat()
}

fn film(chunks: &[Vec<u8>]) -> Vec<u8> {
    [&HEADER[..], &chunks.concat()].concat()
}

/// What is left of a film for a stream. It is no longer, and stripped again it stays.
fn stripped(film: &[u8], stream: usize) -> Vec<u8> {
    let mut room = vec![0x5A; film.len() + 9];
    let length = strip(film, stream, &mut room).expect("enough room");
    assert!(length <= film.len(), "never longer");
    assert!(room[length..].iter().all(|&byte| byte == 0x5A), "behind the new film");
    room.truncate(length);
    let mut again = vec![0x5A; length];
    assert_eq!(strip(&room, stream, &mut again), Ok(length));
    assert!(again == room, "twice changes nothing");
    room
}

fn send() -> Vec<u8> {
    opcode(0x07, 0, &[1, 2, 3, 4])
}

/// An 8-bit packet of two samples for the streams of a mask.
fn sound(mask: u16, samples: [u8; 2]) -> Vec<u8> {
    let words = [1, mask, 2].map(u16::to_le_bytes).concat();
    opcode(0x08, 0, &[words, samples.to_vec()].concat())
}

fn silence(mask: u16) -> Vec<u8> {
    opcode(0x09, 0, &[1, mask, 2].map(u16::to_le_bytes).concat())
}

/// 8-bit mono at 22,050 Hz.
fn format() -> Vec<u8> {
    opcode(0x03, 0, &[0, 0, 0, 0, 0x22, 0x56, 0, 0])
}

/// "Rewrite a film without the opcodes that are passed over and without sound for other streams"
#[test]
fn opcodes() {
    let passed = [0x02, 0x04, 0x0A, 0x12, 0x13, 0x14, 0x15].map(|kind| opcode(kind, 99, &[5; 7]));
    let acted_on = [
        opcode(0x05, 2, &[1, 0, 1, 0, 9, 9, 0, 0]),
        opcode(0x0B, 0, &[0; 6]),
        opcode(0x0C, 0, &[0, 0, 1, 0, 1, 2, 3]),
        opcode(0x0D, 0, &[0; 32]),
        opcode(0x0F, 0, &[0x0E]),
        opcode(0x11, 0, &[0; 15]),
        send(),
        opcode(0x01, 0, &[]),
    ];
    let mixed = [&passed[..], &acted_on[..4], &passed, &acted_on[4..]].concat();
    for stream in [0, 7, 15, NO_STREAM, 17, usize::MAX] {
        assert_eq!(stripped(&film(&[chunk(3, &mixed)]), stream), film(&[chunk(3, &acted_on)]));
    }

    let sounds = [format(), sound(1, [1, 2]), silence(1 << 15), sound(0x8001, [3, 4]), silence(0)];
    let of = |stream| stripped(&film(&[chunk(1, &sounds)]), stream);
    let kept = |numbers: &[usize]| {
        let opcodes: Vec<_> = numbers.iter().map(|&number| sounds[number].clone()).collect();
        film(&[chunk(1, &opcodes)])
    };
    assert_eq!(of(0), kept(&[0, 1, 3]));
    assert_eq!(of(15), kept(&[0, 2, 3]));
    assert_eq!(of(1), kept(&[0]));
    assert_eq!(of(NO_STREAM), HEADER);
    assert_eq!(of(usize::MAX), HEADER);
}

/// "fixing chunk lengths and dropping every empty chunk and what follows the chunk with 00."
#[test]
fn chunks() {
    let timer = opcode(0x02, 0, &[1; 6]);
    let end = chunk(0xABCD, &[opcode(0x00, 0, &[])]);
    let long = film(&[
        chunk(2, &[]),
        chunk(3, std::slice::from_ref(&timer)),
        chunk(0x1234, &[timer.clone(), send(), timer.clone()]),
        chunk(7, &[opcode(0x01, 0, &[])]),
        chunk(0xABCD, &[timer, opcode(0x00, 0, &[])]),
        chunk(3, &[send()]),
        vec![0xFF; 3],
    ]);
    let left = film(&[chunk(0x1234, &[send()]), chunk(7, &[opcode(0x01, 0, &[])]), end]);
    assert_eq!(stripped(&long, 0), left);
    assert_eq!(left[26..30], [8, 0, 0x34, 0x12], "the length is fixed, the type stays");
    assert_eq!(stripped(HEADER, 0), HEADER);
}

/// Pictures with palettes and samples, in their order, and the number of the refusal.
fn played(film: &[u8], stream: usize, room: usize) -> (Vec<Vec<u8>>, Option<Error>) {
    let (mut a, mut b, mut place) = (vec![3; 64], vec![4; 64], 0);
    let (mut palette, mut room) = ([9; PALETTE_BYTES], vec![0; room]);
    let pictures = Pictures::bytes(&mut a, &mut b);
    let memory = Memory { palette: &mut palette, pictures, place: &mut place, room: &mut room };
    let mut player = Player::open(film, stream, memory).expect("a header");
    let mut events = Vec::new();
    loop {
        match player.step() {
            Ok(Some(Event::Picture(shown))) => events.push([shown.pixels, shown.palette].concat()),
            Ok(Some(Event::Samples(samples))) => events.push(samples.bytes.to_vec()),
            Ok(Some(_)) => (),
            Ok(None) => return (events, None),
            Err(refused) => return (events, Some(refused.refusal.error)),
        }
    }
}

/// "must send the same pictures and the chosen stream's same samples, up to the same refusal number if one
/// comes." A colour, sound for two streams and two pictures; the third has code 6.
#[test]
fn plays_the_same() {
    let timer = opcode(0x02, 0, &[1; 6]);
    let picture = |colour, code| {
        let frame = [opcode(0x0F, 0, &[code]), timer.clone(), opcode(0x11, 0, &[colour; 15])];
        chunk(3, &[&frame[..], &[sound(2, [colour, 1]), timer.clone(), send()]].concat())
    };
    let size = chunk(2, &[timer.clone(), opcode(0x05, 0, &[1, 0, 1, 0]), format()]);
    let other = chunk(1, &[sound(1, [7, 8]), opcode(0x0C, 0, &[5, 0, 1, 0, 1, 2, 3])]);
    let film =
        film(&[size, chunk(2, &[]), other, picture(5, 0x0E), picture(6, 0x0E), picture(7, 6)]);
    for stream in [0, 1, 2, NO_STREAM] {
        let left = stripped(&film, stream);
        let (events, end) = played(&film, stream, ROOM_BYTES);
        assert_eq!(events.len(), if stream == 1 { 4 } else { 2 + usize::from(stream == 0) });
        assert_eq!(end, Some(Error::Code6));
        assert_eq!(played(&left, stream, ROOM_BYTES), (events, end), "stream {stream}");
    }
    // Too little room for the samples: alike, too.
    assert_eq!(played(&film, 0, 1), (Vec::new(), Some(Error::Room)));
    assert_eq!(played(&stripped(&film, 0), 0, 1), (Vec::new(), Some(Error::Room)));
}

/// "Refusals: 1, the first of 2 to 5 met as W13 tests, then 19."
#[test]
fn refusals() {
    let refused = |film: &[u8], room: usize| {
        let mut room = vec![0x5A; room];
        let answers = [0, 3, NO_STREAM].map(|stream| strip(film, stream, &mut room));
        assert!(room.iter().all(|&byte| byte == 0x5A), "nothing is written");
        assert!(answers.iter().all(|&answer| answer == answers[0]));
        answers[0].expect_err("a refusal")
    };
    for wrong in [&HEADER[..25], &[&HEADER[..25], &[0x10]].concat(), &[]] {
        assert_eq!(refused(wrong, 0), Error::Header);
    }
    let bad = [
        (vec![0xFF, 0xFF, 3, 0, 1], Error::Chunk),
        (chunk(3, &[vec![0; 3]]), Error::Opcode),
        (chunk(3, &[opcode(0x06, 0, &[])]), Error::Type),
        (chunk(3, &[opcode(0x07, 0, &[])]), Error::BodyLength),
        (chunk(3, &[opcode(0x0C, 0, &[0, 0, 1, 0])]), Error::BodyLength),
        (chunk(3, &[opcode(0x11, 0, &[0; 13])]), Error::BodyLength),
        // sound, whatever the stream
        (chunk(3, &[opcode(0x03, 2, &[0; 8])]), Error::Type),
        (chunk(3, &[opcode(0x08, 0, &[0; 5])]), Error::BodyLength),
    ];
    for (first, error) in &bad {
        for (second, _) in &bad {
            let film = film(&[chunk(3, &[send()]), first.clone(), second.clone()]);
            for room in [0, 26, film.len()] {
                assert_eq!(refused(&film, room), *error);
            }
        }
        // behind 00 nothing is tested
        let end = chunk(3, &[opcode(0x00, 0, &[])]);
        assert_eq!(stripped(&film(&[end.clone(), first.clone()]), 0), film(&[end]));
    }
    let film = film(&[chunk(3, &[send(), opcode(0x02, 0, &[])])]);
    for room in 0..26 + 4 + 8 {
        assert_eq!(refused(&film, room), Error::Room, "{room}");
    }
    assert_eq!(strip(&film, 0, &mut [0; 38]), Ok(38));
}
