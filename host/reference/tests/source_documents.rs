//! The worked examples of the source documents 000 and 003 where documents 01 and 02 do not overrule
//! them. Layouts are copied from the documents, not from the decoder. Those of encoding 8 have the
//! fields of each byte from its high end; 02, W3 overrules that, and here they are turned round byte
//! by byte: a row of 8 is mirrored, and of two rows of 4 in one byte each is mirrored and takes the
//! other's place.

mod common;

use common::{block, hex};
use reference::sound::NO_STREAM;
use reference::steps::STEPS;
use reference::{block::copy, film, palette};
use std::collections::BTreeSet;

/// 000 and 003, encoding 7, P0 <= P1.
#[test]
fn encoding_7_fine() {
    let layout = "22 22 22 22 22 22 22 22
                  22 11 11 11 11 11 11 22
                  22 11 11 11 11 11 11 22
                  22 11 11 11 11 11 11 22
                  22 11 11 11 11 11 11 22
                  22 11 11 11 11 11 11 22
                  22 11 11 11 11 11 11 22
                  22 22 22 22 22 22 22 22";
    let data = hex("11 22 ff 81 81 81 81 81 81 ff");
    assert_eq!(block(0x7, &data), hex(layout));
}

/// 000 and 003, encoding 7, P0 > P1: by their text (a set bit is P1, here 11, and each bit is a
/// 2x2). Their picture has the colours exchanged and single pixels in rows 4 to 7; 01 overrules it.
#[test]
fn encoding_7_coarse() {
    let layout = "11 11 11 11 11 11 11 11
                  11 11 11 11 11 11 11 11
                  11 11 11 11 11 11 11 11
                  11 11 11 11 11 11 11 11
                  11 11 22 22 22 22 22 22
                  11 11 22 22 22 22 22 22
                  22 22 22 22 22 22 11 11
                  22 22 22 22 22 22 11 11";
    assert_eq!(block(0x7, &hex("22 11 ff 81")), hex(layout));
}

/// 000 and 003, encoding 8, quarters: their four quarters, placed as their text says (second one
/// bottom-left, third one top-right), each byte turned round. Their picture exchanges these two; 01
/// overrules it.
#[test]
fn encoding_8_quarters() {
    let layout = "22 00 00 22  44 55 44 55
                  22 22 22 22  44 55 44 55
                  22 22 22 22  55 44 55 44
                  22 00 00 22  55 44 55 44

                  11 11 33 33  77 66 66 66
                  11 11 33 33  66 66 66 66
                  33 33 11 11  77 77 77 77
                  33 33 11 11  66 77 77 77";
    let data = hex("00 22 f9 9f 11 33 cc 33 44 55 aa 55 66 77 01 ef");
    assert_eq!(block(0x8, &data), hex(layout));
}

/// 000 and 003, encoding 8, "a horizontally split block", each byte turned round. A byte is two rows
/// of a half.
#[test]
fn encoding_8_left_and_right() {
    let layout = "00 22 22 22 11 11 66 66
                  22 22 22 22 11 11 11 66
                  00 00 00 22 11 66 66 11
                  00 00 22 22 11 66 66 66
                  00 00 00 22 66 66 11 11
                  00 00 00 00 66 66 66 11
                  00 22 22 22 66 11 11 11
                  00 00 22 22 66 66 11 11";
    let data = hex("22 00 01 37 f7 31 11 66 8c e6 73 31");
    assert_eq!(block(0x8, &data), hex(layout));
}

/// 000 and 003, encoding 8, "a vertically split block", each byte turned round. A byte is a row.
#[test]
fn encoding_8_top_and_bottom() {
    let layout = "22 22 00 00 22 22 00 00
                  22 00 00 22 22 00 00 22
                  00 00 22 22 00 00 22 22
                  00 22 22 00 00 22 22 22
                  66 66 66 11 11 66 66 66
                  66 66 11 66 66 11 66 66
                  66 11 66 66 66 66 11 66
                  11 66 66 66 66 66 66 11";
    let data = hex("22 00 cc 66 33 19 66 11 18 24 42 81");
    assert_eq!(block(0x8, &data), hex(layout));
}

/// 000 and 003, encoding F.
#[test]
fn encoding_f_dithered() {
    let pair_of_rows = "0a 0b 0a 0b 0a 0b 0a 0b
                        0b 0a 0b 0a 0b 0a 0b 0a";
    let layout = pair_of_rows.repeat(4);
    assert_eq!(block(0xF, &hex("0a 0b")), hex(&layout));
}

/// The (x, y) of every '#' in a drawing whose block of 'o' has its top-left at (0, 0).
fn drawn_region(drawing: &str) -> BTreeSet<(isize, isize)> {
    let find = |wanted: char| {
        let cells = drawing.lines().enumerate().flat_map(move |(y, line)| {
            let columns = line.chars().enumerate();
            columns.filter(move |&(_, c)| c == wanted).map(move |(x, _)| (x as isize, y as isize))
        });
        cells.collect::<Vec<_>>()
    };
    let (left, top) = find('o')[0];
    let marks = find('#').into_iter();
    marks.map(|(x, y)| (x - left, y - top)).collect()
}

fn vectors(code: u8) -> BTreeSet<(isize, isize)> {
    let vector = |byte| {
        let copy = copy(code, &[byte]).expect("a copying code");
        (copy.dx, copy.dy)
    };
    (0..=255).map(vector).collect()
}

/// 000, encoding 2: "# are the locations where the source frame could start". 256 of them, so no
/// byte names a location twice.
#[test]
fn encoding_2_region() {
    let region = drawn_region(
        "
                      oooooooo#######
                      oooooooo#######
                      oooooooo#######
                      oooooooo#######
                      oooooooo#######
                      oooooooo#######
                      oooooooo#######
                      oooooooo#######
        #############################
        #############################
        #############################
        #############################
        #############################
        #############################
        ##########################",
    );
    assert_eq!(region.len(), 256);
    assert_eq!(vectors(2), region);
}

/// 000, encoding 3. This drawing marks the last pixel of the source, seven to the right and seven
/// down of where it starts.
#[test]
fn encoding_3_region() {
    let region = drawn_region(
        "
                  ##########################
               #############################
               #############################
               #############################
               #############################
               #############################
               #############################
               #######oooooooo
               #######oooooooo
               #######oooooooo
               #######oooooooo
               #######oooooooo
               #######oooooooo
               #######oooooooo
               #######oooooooo",
    );
    let last_pixels = vectors(3).into_iter().map(|(x, y)| (x + 7, y + 7));
    assert_eq!(region, last_pixels.collect());
}

/// 003, "Header": the bytes as its C string has them, then three words.
#[test]
fn header() {
    let bytes = [&b"Interplay MVE File\x1A\0"[..], &hex("1a00 0001 3311")].concat();
    assert!(film::open(&bytes, NO_STREAM).is_ok());
}

/// 003, opcode 0B: the table of base 12, 5 rows, 4 columns; here of blue and, with the bytes of
/// the second gradient, of green.
#[test]
fn opcode_0b_gradient() {
    let table = [
        [(0, 0), (0, 13), (0, 26), (0, 39)],
        [(15, 0), (15, 13), (15, 26), (15, 39)],
        [(31, 0), (31, 13), (31, 26), (31, 39)],
        [(47, 0), (47, 13), (47, 26), (47, 39)],
        [(63, 0), (63, 13), (63, 26), (63, 39)],
    ];
    let colours = table.as_flattened().iter();
    let blue: Vec<u8> = colours.clone().flat_map(|&(r, b)| [r, 0, b]).collect();
    let green: Vec<u8> = colours.flat_map(|&(r, g)| [r, g, 0]).collect();
    let mut entries = [0; 768];
    palette::create_gradient(&[12, 5, 4, 100, 5, 4], &mut entries).expect("taken");
    assert_eq!(entries[12 * 3..32 * 3], blue);
    assert_eq!(entries[100 * 3..120 * 3], green);
}

/// 003, opcode 0C: entries are packed RGBRGB.
#[test]
fn opcode_0c_packing() {
    let mut entries = [0; 768];
    let body = hex("fe 00 02 00 01 02 03 04 05 06");
    palette::set_palette(&body, &mut entries).expect("taken");
    assert_eq!(entries[254 * 3..], [1, 2, 3, 4, 5, 6]);
    assert_eq!(entries[..254 * 3], [0; 254 * 3]);
}

/// 003, opcode 0D: the 35 bytes of its example. It calls the entry the 240th; by its own table
/// (e0-e7) it is 224, as 01 says.
#[test]
fn opcode_0d_example() {
    let body = hex("00 00 00 00 00 00 00 00 00 00 00 00 00 00 00 00
                    00 00 00 00 00 00 00 00 00 00 00 00 01 0a 0b 0c 00 00 00");
    assert_eq!(body.len(), 35);
    let mut entries = [0; 768];
    palette::set_palette_compressed(&body, &mut entries).expect("taken");
    assert_eq!(entries[0xE0 * 3..0xE1 * 3], [0x0a, 0x0b, 0x0c]);
    assert_eq!(entries.iter().filter(|&&byte| byte != 0).count(), 3);
}

/// 003, opcodes 08 and 09: "the particular table used for the delta coding". 02 says of it that
/// entries i and 256 - i cancel from 1 to 255 except 128, which is 1, and that 0 to 119 rise.
#[test]
fn opcode_08_steps() {
    let table = "
        0, 1, 2, 3, 4, 5, 6, 7, 8, 9, 10, 11, 12, 13, 14, 15, 16, 17, 18, 19, 20, 21, 22,
        23, 24, 25, 26, 27, 28, 29, 30, 31, 32, 33, 34, 35, 36, 37, 38, 39, 40, 41, 42, 43,
        47, 51, 56, 61, 66, 72, 79, 86, 94, 102, 112, 122, 133, 145, 158, 173, 189, 206,
        225, 245, 267, 292, 318, 348, 379, 414, 452, 493, 538, 587, 640, 699, 763, 832, 908,
        991, 1081, 1180, 1288, 1405, 1534, 1673, 1826, 1993, 2175, 2373, 2590, 2826, 3084,
        3365, 3672, 4008, 4373, 4772, 5208, 5683, 6202, 6767, 7385, 8059, 8794, 9597, 10472,
        11428, 12471, 13609, 14851, 16206, 17685, 19298, 21060, 22981, 25078, 27367, 29864,
        32589, -29973, -26728, -23186, -19322, -15105, -10503, -5481, -1, 1, 1, 5481, 10503,
        15105, 19322, 23186, 26728, 29973, -32589, -29864, -27367, -25078, -22981, -21060,
        -19298, -17685, -16206, -14851, -13609, -12471, -11428, -10472, -9597, -8794, -8059,
        -7385, -6767, -6202, -5683, -5208, -4772, -4373, -4008, -3672, -3365, -3084, -2826,
        -2590, -2373, -2175, -1993, -1826, -1673, -1534, -1405, -1288, -1180, -1081, -991,
        -908, -832, -763, -699, -640, -587, -538, -493, -452, -414, -379, -348, -318, -292,
        -267, -245, -225, -206, -189, -173, -158, -145, -133, -122, -112, -102, -94, -86,
        -79, -72, -66, -61, -56, -51, -47, -43, -42, -41, -40, -39, -38, -37, -36, -35, -34,
        -33, -32, -31, -30, -29, -28, -27, -26, -25, -24, -23, -22, -21, -20, -19, -18, -17,
        -16, -15, -14, -13, -12, -11, -10, -9, -8, -7, -6, -5, -4, -3, -2, -1";
    let numbers = table.split(',').map(|number| number.trim().parse().expect("a number"));
    assert_eq!(numbers.collect::<Vec<i16>>(), STEPS);
    for i in (1..256).filter(|&i| i != 128) {
        assert_eq!(STEPS[i].wrapping_add(STEPS[256 - i]), 0, "{i}");
    }
    assert_eq!(STEPS[128], 1);
    assert!(STEPS[..120].is_sorted_by(|one, next| one < next));
}
