//! The cases of document 01's "Checked by hand" that concern a packet or the palette, in its order,
//! and its slip in 0D. The expected values are the document's; the rows of patterns are worked out by
//! hand from its bytes, with fields from the low end of each byte (document 02, W3). (Those that
//! stand as examples in the documentation are run there.)

use mve::{begin, check, draw, Error, Refusal, NO_STREAM};

/// The picture that a single block of this code and data gives.
fn block(code: u8, data: &[u8]) -> [u8; 64] {
    let (mut back, mut place) = ([0; 64], 0);
    let drawn = draw(1, 1, &[code], data, &[0; 64], &mut back, &mut place, 65);
    assert_eq!(drawn.map(|drawn| drawn.stores()), Ok(65));
    assert_eq!(place, 1);
    back
}

/// ★ 7, a bit a pixel.
#[test]
fn two_colours_fine() {
    let picture = block(0x7, &[0x11, 0x22, 0xff, 0x81, 0x81, 0x81, 0x81, 0x81, 0x81, 0xff]);
    assert_eq!(picture[..8], [0x22; 8]);
    assert_eq!(picture[8..16], [0x22, 0x11, 0x11, 0x11, 0x11, 0x11, 0x11, 0x22]);
}

/// ★ 8, left and right halves. Row 0 is the low nibbles of 01 and 8c: from the low end 1 0 0 0 and
/// 0 0 1 1.
#[test]
fn two_colours_left_and_right() {
    let data = [0x22, 0x00, 0x01, 0x37, 0xf7, 0x31, 0x11, 0x66, 0x8c, 0xe6, 0x73, 0x31];
    assert_eq!(block(0x8, &data)[..8], [0x00, 0x22, 0x22, 0x22, 0x11, 0x11, 0x66, 0x66]);
}

/// ★ 8, top and bottom halves.
#[test]
fn two_colours_top_and_bottom() {
    let data = [0x22, 0x00, 0xcc, 0x66, 0x33, 0x19, 0x66, 0x11, 0x18, 0x24, 0x42, 0x81];
    assert_eq!(block(0x8, &data)[56..], [0x11, 0x66, 0x66, 0x66, 0x66, 0x66, 0x66, 0x11]);
}

/// ★ 8, quarters. Row 4 is the low nibbles of cc and 01: from the low end 0 0 1 1 and 1 0 0 0.
#[test]
fn two_colours_quarters() {
    let data = [
        0x00, 0x22, 0xf9, 0x9f, 0x11, 0x33, 0xcc, 0x33, 0x44, 0x55, 0xaa, 0x55, 0x66, 0x77, 0x01,
        0xef,
    ];
    let row = &block(0x8, &data)[32..40];
    assert_eq!(row, [0x11, 0x11, 0x33, 0x33, 0x77, 0x66, 0x66, 0x66]);
}

/// The first pixel of the block at (16, 8) of a frame of 5x5 blocks. Back tells the number of each
/// pixel, and so does front, with the high bit set.
fn first_pixel(code: u8, byte: u8, number: fn(usize) -> usize) -> u8 {
    let mut back: Vec<u8> = (0..1600).map(|index| number(index) as u8).collect();
    let front: Vec<u8> = back.iter().map(|pixel| pixel | 0x80).collect();
    // Five blocks a row: it is block 7, the high nibble of byte 3. The others are untouched.
    let mut map = [0x11; 13];
    map[3] = code << 4 | 0x1;
    draw(5, 5, &map, &[byte], &front, &mut back, &mut 0, 312_000).expect("a copy inside");
    back[8 * 40 + 16]
}

/// Which picture that block is copied from, and by which vector.
fn copied(code: u8, byte: u8) -> (&'static str, i32, i32) {
    let column = first_pixel(code, byte, |index| index % 40);
    let row = first_pixel(code, byte, |index| index / 40);
    let picture = if column & 0x80 == 0 { "back" } else { "front" };
    (picture, i32::from(column & 0x7f) - 16, i32::from(row & 0x7f) - 8)
}

/// ★ The vectors of codes 2 and 4.
#[test]
fn motion_vectors() {
    assert_eq!(copied(0x2, 0), ("back", 8, 0));
    assert_eq!(copied(0x2, 55), ("back", 14, 7));
    assert_eq!(copied(0x2, 56), ("back", -14, 8));
    assert_eq!(copied(0x2, 255), ("back", 11, 14));
    assert_eq!(copied(0x4, 0x00), ("front", -8, -8));
    assert_eq!(copied(0x4, 0x88), ("front", 0, 0));
    assert_eq!(copied(0x4, 0xff), ("front", 7, 7));
}

/// A palette whose bytes are all AA, after a film of an opcode of this type and body and a size of
/// one block is opened.
fn palette_after(kind: u8, body: &[u8]) -> [u8; 768] {
    let length = body.len() as u8;
    let heads = [length + 12, 0, 0, 0, length, 0, kind, 0];
    let size = [4, 0, 0x05, 0, 1, 0, 1, 0];
    let film = [b"Interplay MVE File\x1A\0\x1A\0\0\x01\x33\x11", &heads[..], body, &size].concat();
    let mut palette = [0xAA; 768];
    let state = begin(&film, NO_STREAM, &mut palette, &mut 0).expect("a size");
    assert_eq!(state.position, film.len());
    palette
}

/// ★ Gradient 12, 5, 4, of red and blue.
#[test]
fn gradient() {
    let palette = palette_after(0x0B, &[12, 5, 4, 0, 0, 0]);
    let mut expected = [[0xAA; 3]; 256];
    for (i, red) in [0, 15, 31, 47, 63].into_iter().enumerate() {
        for (j, blue) in [0, 13, 26, 39].into_iter().enumerate() {
            expected[12 + i * 4 + j] = [red, 0, blue];
        }
    }
    assert_eq!(palette, expected.as_flattened());
}

/// ★ Map byte E1: code 1, then E.
#[test]
fn map_low_nibble_first() {
    let (mut back, mut place) = ([5; 128], 0);
    let drawn = draw(2, 1, &[0xE1], &[7], &[0; 128], &mut back, &mut place, 312_000);
    assert_eq!((drawn.map(|drawn| drawn.stores()), place), (Ok(66), 2));
    for row in back.chunks(16) {
        assert_eq!(row, [[5; 8], [7; 8]].concat());
    }
}

/// Slip: 28 zero masks, then 01, set entry 224 in 0D, not 240.
#[test]
fn slip_entry_240() {
    let body = [&[0; 28][..], &[0x01, 61, 62, 63], &[0; 3]].concat();
    let mut expected = [[0xAA; 3]; 256];
    expected[224] = [61, 62, 63];
    assert_eq!(palette_after(0x0D, &body), expected.as_flattened());
}

/// Each number that checking and drawing meet, in the table's order, on the case of 16x8 pixels: 15 by
/// two bytes left over (document 02, W6). A refused call changes neither picture nor place.
#[test]
fn refusals() {
    let meets = |columns, map: &[u8], data: &[u8], front: usize, found: usize| {
        let (mut back, mut place) = ([5; 128], found);
        let front = &[0; 128][..front];
        let drawn = draw(columns, 1, map, data, front, &mut back, &mut place, 312_000);
        assert_eq!(back, [5; 128]);
        assert_eq!(place, found);
        let refusal = drawn.expect_err("refused");
        (refusal.number(), refusal.block)
    };
    assert_eq!(meets(81, &[], &[], 0, 3), (6, 0));
    assert_eq!(meets(2, &[], &[], 127, 3), (8, 0));
    assert_eq!(meets(3, &[], &[], 128, 3), (8, 0));
    assert_eq!(meets(2, &[], &[], 128, 3), (10, 0));
    assert_eq!(meets(2, &[0x66], &[], 128, 3), (11, 0));
    assert_eq!(meets(2, &[0x66], &[], 128, usize::MAX), (11, 0));
    assert_eq!(meets(2, &[0x6E], &[0], 128, 2), (12, 1));
    assert_eq!(meets(2, &[0xEE], &[0], 128, 2), (13, 1));
    assert_eq!(meets(2, &[0x2E], &[0, 0], 128, 2), (14, 1));
    assert_eq!(meets(2, &[0xEE], &[0, 0, 0, 0], 128, 2), (15, 0));
}

/// Slices without a byte are lent like others.
#[test]
fn empty_slices() {
    let refused = |error| Err(Refusal { error, block: 0 });
    assert_eq!(check(0, 0, &[], &[]), refused(Error::FrameSize));
    assert_eq!(check(1, 1, &[], &[]), refused(Error::MapLength));
    assert_eq!(check(1, 1, &[0x01], &[]), Ok(None));
    assert_eq!(check(1, 1, &[0x0E], &[]), refused(Error::DataShort));
    let mut place = 0;
    assert_eq!(
        draw(1, 1, &[], &[], &[], &mut [], &mut place, 65),
        Err(Refusal { error: Error::LentLength, block: 0 })
    );
    assert_eq!(place, 0);
}
