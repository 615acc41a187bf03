//! One cause a message: where a number of refusal has several causes, the one that it is.

mod common;

use common::{mve, with_film};
use maker::film::{self, Chunk, Film, Opcode, HEADER};
use maker::Size;

/// What is told, in a folder of this name, of a film of one chunk with this behind opcodes that are right.
fn told(folder: &str, before: Vec<Opcode>, bytes: &[u8]) -> String {
    let chunk = Chunk { kind: 3, opcodes: before, loose: bytes.to_vec(), ..Chunk::default() };
    let film = Film { size: Size::new(1, 1), stream: 16, chunks: vec![chunk], tail: Vec::new() };
    told_of(folder, &film.bytes())
}

fn told_of(folder: &str, film: &[u8]) -> String {
    let ran = mve(&with_film(folder, film), &["info", "film.mve"]);
    assert_eq!((ran.code, &*ran.err), (Some(1), ""));
    let mut lines = ran.text().lines().skip_while(|line| !line.starts_with("  result    "));
    let place =
        lines.next().and_then(|line| line.strip_prefix("  result    does not play: refusal "));
    let number = place.and_then(|place| place.split_once(" at byte ")).expect("a place").0;
    format!("{number}: {}", lines.next().expect("the cause").trim_start())
}

fn size() -> Opcode {
    film::init_video(Size::new(1, 1))
}

fn format(version: u8, flags: u8) -> Opcode {
    let length = if version == 0 { 8 } else { 10 };
    let mut body = vec![0; length];
    (body[2], body[4], body[5]) = (flags, 0x22, 0x56);
    Opcode::new(0x03, version, body)
}

#[test]
fn chunks() {
    let whole = [&HEADER[..], &[8, 0, 2, 0, 4, 0, 5, 0]].concat();
    assert_eq!(
        told_of("causes_chunks", &whole),
        "2: the film breaks off: this chunk has 8 bytes, and 4 are left"
    );
    let head = "2: the film breaks off inside the head of this chunk";
    assert_eq!(told_of("causes_chunks", &whole[..29]), head);
}

#[test]
fn opcodes() {
    let cases: [(&[u8], &str); 10] = [
        (&[1, 0, 5], "3: 3 bytes are left in the chunk, and an opcode's head has 4"),
        (
            &[5, 0, 7, 0, 1],
            "3: opcode 0x07 passes the end of its chunk: it has 5 bytes, and 1 are left",
        ),
        (&[0, 0, 1, 0, 7, 7], "3: opcode 0x01 must be the last of its chunk, and 2 bytes follow"),
        (&[0, 0, 6, 0], "4: opcode 0x06 is not one that the player takes"),
        (&[0, 0, 0x16, 0], "4: opcode 0x16 is not one that the player takes"),
        (&[0, 0, 5, 3], "4: opcode 0x05 has no version 3"),
        (&[1, 0, 7, 0, 9], "5: opcode 0x07, version 0, cannot have 1 bytes"),
        (&[5, 0, 0x0C, 0, 0, 0, 0, 0, 9], "5: opcode 0x0C does not fill its 5 bytes exactly"),
        (
            &[14, 0, 0x11, 0, 0, 0, 0, 0, 0, 0, 0, 0, 0, 0, 0, 0, 0, 0],
            "9: a picture comes before the size of the pictures",
        ),
        (&[6, 0, 9, 0, 0, 0, 1, 0, 1, 0], "17: sound comes before its format"),
    ];
    for (bytes, expected) in cases {
        assert_eq!(told("causes_opcodes", Vec::new(), bytes), expected);
    }
    let video = [&[14, 0, 0x11, 0][..], &[0; 14]].concat();
    let no_map = "9: a picture comes without the map of its blocks' codes";
    assert_eq!(told("causes_opcodes", vec![size()], &video), no_map);
}

#[test]
fn sizes() {
    let cases: [(&[u8], &str); 4] = [
        (&[4, 0, 5, 0, 0, 0, 1, 0], "6: pictures of 0x1 blocks: 1x1 to 80x60 are possible"),
        (&[4, 0, 5, 0, 81, 0, 61, 1], "6: pictures of 81x317 blocks: 1x1 to 80x60 are possible"),
        (
            &[8, 0, 5, 2, 1, 0, 61, 0, 0, 0, 1, 0],
            "6: pictures of 1x61 blocks: 1x1 to 80x60 are possible",
        ),
        (&[6, 0, 5, 1, 1, 0, 99, 0, 0, 0], "6: pictures of 1x99 blocks: 1x1 to 80x60 are possible"),
    ];
    for (bytes, expected) in cases {
        assert_eq!(told("causes_sizes", Vec::new(), bytes), expected);
    }
    let second = told("causes_sizes", vec![size()], &[4, 0, 5, 0, 1, 0, 1, 0]);
    assert_eq!(second, "6: the size of the pictures is given a second time");
}

#[test]
fn palettes() {
    let past = "7: 2 palette entries from 255 on: the last entry is 255";
    let component = "7: a colour component is above 63";
    assert_eq!(
        told("causes_palettes", Vec::new(), &[10, 0, 0x0C, 0, 255, 0, 2, 0, 1, 1, 1, 1, 1, 1]),
        past
    );
    assert_eq!(
        told("causes_palettes", Vec::new(), &[7, 0, 0x0C, 0, 255, 0, 1, 0, 1, 64, 1]),
        component
    );
    let masks = [&[35, 0, 0x0D, 0, 1, 64, 0, 0][..], &[0; 31]].concat();
    assert_eq!(told("causes_palettes", Vec::new(), &masks), component);
    let first = "7: a gradient of 60 entries from 200 on: the last entry is 255";
    assert_eq!(told("causes_palettes", Vec::new(), &[6, 0, 0x0B, 0, 200, 6, 10, 255, 0, 9]), first);
    let second = "7: a gradient of 2 entries from 255 on: the last entry is 255";
    assert_eq!(
        told("causes_palettes", Vec::new(), &[6, 0, 0x0B, 0, 200, 0, 10, 255, 1, 2]),
        second
    );
}

/// A format of flags 1 (stereo), 2 (16-bit), 4 (compressed), then sound of stream 0.
#[test]
fn sounds() {
    let both = told("causes_sounds", Vec::new(), &[10, 0, 3, 1, 0, 0, 4, 0, 0, 0, 0, 0, 0, 0]);
    assert_eq!(both, "17: the sound is both 8-bit and compressed");
    let sound = |count: u8, data: &[u8]| {
        [&[6 + data.len() as u8, 0, 8, 0, 0, 0, 1, 0, count, 0][..], data].concat()
    };
    let cases = [
        (
            format(0, 1),
            sound(3, &[0; 3]),
            "3 samples are not as many for the left channel as for the right",
        ),
        (
            format(0, 2),
            sound(3, &[0; 3]),
            "the sound has 3 bytes of data, and its 3 samples take 6",
        ),
        (
            format(0, 0),
            sound(3, &[0; 4]),
            "the sound has 4 bytes of data, and its 3 samples take 3",
        ),
        (
            format(1, 6),
            sound(3, &[0; 3]),
            "the sound has 3 bytes of data, and its 3 samples take 4",
        ),
        (
            format(1, 7),
            sound(0, &[]),
            "the first sound has 0 samples: a start word a channel is one each",
        ),
    ];
    for (format, bytes, expected) in cases {
        assert_eq!(told("causes_sounds", vec![format], &bytes), format!("18: {expected}"));
    }
    let first = Opcode::new(0x08, 0, sound(2, &[0; 3])[4..].to_vec());
    let later = told("causes_sounds", vec![format(1, 6), first], &sound(3, &[0; 4]));
    assert_eq!(later, "18: the sound has 4 bytes of data, and its 3 samples take 3");
}
