//! Blocks that the documents describe without a worked example, with layouts worked out by hand
//! from document 01's table, 000's text and document 02's order of fields (W3), and the data length
//! of every form.

mod common;

use common::{block, hex};
use reference::{block::source, check_as, draw, packet, CallForm, Refusal, Source};

/// Eight rows from the rows given; the last one is repeated to the bottom.
fn layout(rows: &[&str]) -> Vec<u8> {
    let last = rows.len() - 1;
    (0..8).flat_map(|y| hex(rows[y.min(last)])).collect()
}

/// 7, a bit a pixel: the lowest bit is the leftmost pixel, and bytes are rows from top to bottom.
#[test]
fn two_colours_fine() {
    let rows = [
        "22 11 11 11 11 11 11 11", // 01
        "11 11 11 11 11 11 11 22", // 80
        "22 22 22 22 11 11 11 11", // 0f
        "11 22 11 11 22 22 11 22", // b2 is 1011 0010
        "11 11 11 11 11 11 11 11",
    ];
    assert_eq!(block(0x7, &hex("11 22 01 80 0f b2 00 00 00 00")), layout(&rows));
}

/// 7, a bit a 2x2: the low nibble of a byte is the upper row of fields. Of 1e it is e, from the low
/// end 0 1 1 1; then comes 1: 1 0 0 0. Of 80 it is 0, then comes 8: 0 0 0 1.
#[test]
fn two_colours_coarse() {
    let rows = [
        "22 22 11 11 11 11 11 11",
        "22 22 11 11 11 11 11 11",
        "11 11 22 22 22 22 22 22",
        "11 11 22 22 22 22 22 22",
        "22 22 22 22 22 22 22 22",
        "22 22 22 22 22 22 22 22",
        "22 22 22 22 22 22 11 11",
    ];
    assert_eq!(block(0x7, &hex("22 11 1e 80")), layout(&rows));
}

/// 9, P0<=P1 and P2<=P3: from the low end 1b is fields 3 2 1 0, 4e fields 2 3 0 1; two bytes are a
/// row. (1b is 00 01 10 11, 4e is 01 00 11 10.)
#[test]
fn four_colours_1x1() {
    let data = [hex("10 20 30 40 1b 4e"), vec![0; 13], hex("ff")].concat();
    let picture = block(0x9, &data);
    assert_eq!(picture[..8], hex("40 30 20 10 30 40 10 20"));
    assert_eq!(picture[8..56], [0x10; 48]);
    assert_eq!(picture[56..], hex("10 10 10 10 40 40 40 40"));
}

/// 9, P0<=P1 and P2>P3: one byte is two rows of 2x2 fields.
#[test]
fn four_colours_2x2() {
    let row_1b = "30 30 40 40 20 20 10 10";
    let row_4e = "40 40 30 30 10 10 20 20";
    let row_00 = "10 10 10 10 10 10 10 10";
    let expected = layout(&[row_1b, row_1b, row_4e, row_4e, row_00]);
    assert_eq!(block(0x9, &hex("10 20 40 30 1b 4e 00 00")), expected);
}

/// 9, P0>P1 and P2<=P3: fields 2 wide and 1 high, a byte is a row.
#[test]
fn four_colours_2_wide() {
    let rows = ["40 40 30 30 10 10 20 20", "30 30 40 40 20 20 10 10", "20 20 20 20 20 20 20 20"];
    let data = hex("20 10 30 40 1b 4e 00 00 00 00 00 00");
    assert_eq!(block(0x9, &data), layout(&rows));
}

/// 9, both falling: fields 1 wide and 2 high, two bytes are two rows.
#[test]
fn four_colours_2_high() {
    let row_1b_4e = "30 40 10 20 40 30 20 10";
    let row_4e_1b = "40 30 20 10 30 40 10 20";
    let row_00 = "20 20 20 20 20 20 20 20";
    let rows = [row_1b_4e, row_1b_4e, row_4e_1b, row_4e_1b, row_00];
    let data = hex("20 10 40 30 1b 4e 4e 1b 00 00 00 00");
    assert_eq!(block(0x9, &data), layout(&rows));
}

/// A, quarters: a byte is a row of a quarter. Colours 0x in the first quarter (top-left), 1x in
/// the second (bottom-left), 2x (top-right), 3x (bottom-right).
#[test]
fn four_colours_quarters() {
    let data = hex("00 01 02 03 1b 4e 1b 4e
                    10 11 12 13 00 55 aa ff
                    23 22 21 20 1b 1b 1b 1b
                    30 31 32 33 ff aa 55 00");
    let rows = [
        "03 02 01 00 20 21 22 23",
        "02 03 00 01 20 21 22 23",
        "03 02 01 00 20 21 22 23",
        "02 03 00 01 20 21 22 23",
        "10 10 10 10 33 33 33 33",
        "11 11 11 11 32 32 32 32",
        "12 12 12 12 31 31 31 31",
        "13 13 13 13 30 30 30 30",
    ];
    assert_eq!(block(0xA, &data), layout(&rows));
}

/// A, P0>P1 and P4<=P5: left and right halves, a byte is a row of a half.
#[test]
fn four_colours_left_and_right() {
    let data = hex("01 00 02 03 1b 1b 1b 1b 00 55 aa ff
                    10 11 13 12 00 55 aa ff 4e 4e 4e 4e");
    let rows = [
        "03 02 00 01 10 10 10 10",
        "03 02 00 01 11 11 11 11",
        "03 02 00 01 13 13 13 13",
        "03 02 00 01 12 12 12 12",
        "01 01 01 01 13 12 10 11",
        "00 00 00 00 13 12 10 11",
        "02 02 02 02 13 12 10 11",
        "03 03 03 03 13 12 10 11",
    ];
    assert_eq!(block(0xA, &data), layout(&rows));
}

/// A, P0>P1 and P4>P5: top and bottom halves, two bytes are a row.
#[test]
fn four_colours_top_and_bottom() {
    let data = hex("01 00 02 03 1b 4e 00 55 aa ff 4e 1b
                    11 10 12 13 00 00 55 55 aa aa 1b 1b");
    let rows = [
        "03 02 00 01 02 03 01 00",
        "01 01 01 01 00 00 00 00",
        "02 02 02 02 03 03 03 03",
        "02 03 01 00 03 02 00 01",
        "11 11 11 11 11 11 11 11",
        "10 10 10 10 10 10 10 10",
        "12 12 12 12 12 12 12 12",
        "13 12 10 11 13 12 10 11",
    ];
    assert_eq!(block(0xA, &data), layout(&rows));
}

/// An equal pair is not falling: each form that an equal pair could be taken for has another
/// length, so acceptance tells.
#[test]
fn equal_pairs_do_not_fall() {
    assert_eq!(block(0x7, &hex("33 33 00 00 00 00 00 00 00 00")), [0x33; 64]);
    assert_eq!(block(0x8, &[0x44; 16]), [0x44; 64]);
    assert_eq!(block(0x9, &[0x55; 20]), [0x55; 64]);
    assert_eq!(block(0xA, &[0x66; 32]), [0x66; 64]);
}

/// An equal first pair of the second half is left and right: row 0 is 4 pixels of each half.
#[test]
fn equal_second_pairs_are_left_and_right() {
    let data = hex("22 00 00 00 00 00 77 77 00 00 00 00");
    let halves = layout(&["22 22 22 22 77 77 77 77"]);
    assert_eq!(block(0x8, &data), halves);
    let data = hex("22 00 00 00 00 00 00 00 00 00 00 00 77 77 00 00 00 00 00 00 00 00 00 00");
    assert_eq!(block(0xA, &data), halves);
}

#[test]
fn raw_colours() {
    let bytes: Vec<u8> = (0..64).collect();
    assert_eq!(block(0xB, &bytes), bytes);

    let sixteen = hex("00 01 02 03 10 11 12 13 20 21 22 23 30 31 32 33");
    let rows = [
        "00 00 01 01 02 02 03 03",
        "00 00 01 01 02 02 03 03",
        "10 10 11 11 12 12 13 13",
        "10 10 11 11 12 12 13 13",
        "20 20 21 21 22 22 23 23",
        "20 20 21 21 22 22 23 23",
        "30 30 31 31 32 32 33 33",
    ];
    assert_eq!(block(0xC, &sixteen), layout(&rows));

    let top = "0a 0a 0a 0a 0b 0b 0b 0b";
    let bottom = "0c 0c 0c 0c 0d 0d 0d 0d";
    let expected = layout(&[top, top, top, top, bottom]);
    assert_eq!(block(0xD, &hex("0a 0b 0c 0d")), expected);

    assert_eq!(block(0xE, &[0x2a]), [0x2a; 64]);
}

/// Codes 0 and 1: the same block of front, and what stands in back.
#[test]
fn same_block_and_untouched() {
    assert_eq!(block(0x0, &[]), [0xF0; 64]);
    assert_eq!(block(0x1, &[]), [0xBA; 64]);
}

/// A picture of 3x3 blocks, 24x24 pixels, whose pixel at (x, y) has the value base + y * 24 + x,
/// taken modulo 256.
fn numbered(base: usize) -> Vec<u8> {
    (0..24 * 24).map(|index| (base + index) as u8).collect()
}

/// Draws one block in the middle (block 4) of that picture; the others are untouched.
fn middle_block(code: u8, data: &[u8]) -> Vec<u8> {
    let map = [0x11, 0x11, code | 0x10, 0x11, 0x11];
    let (front, mut back, mut place) = (numbered(0), numbered(100), 0);
    draw(3, 3, &map, data, &front, &mut back, &mut place, 312_000).expect("accepted");
    back
}

fn assert_middle_copied(code: u8, data: &[u8], base: usize, dx: isize, dy: isize) {
    let picture = middle_block(code, data);
    for (index, &pixel) in picture.iter().enumerate() {
        let (x, y) = (index % 24, index / 24);
        let inside = (8..16).contains(&x) && (8..16).contains(&y);
        let from = index as isize + if inside { dy * 24 + dx } else { 0 };
        let base = if inside { base } else { 100 };
        let expected = (base as isize + from) as u8;
        assert_eq!(pixel, expected, "code {code}, data {data:?}, pixel ({x}, {y})");
    }
}

/// Copies take the picture and the vector that the table says: 100 on is back, 0 on is front.
#[test]
fn copied_blocks() {
    assert_middle_copied(0x0, &[], 0, 0, 0);
    assert_middle_copied(0x2, &[0], 100, 8, 0);
    assert_middle_copied(0x2, &[56 + 6], 100, -8, 8);
    assert_middle_copied(0x2, &[56 + 22], 100, 8, 8);
    assert_middle_copied(0x3, &[0], 100, -8, 0);
    assert_middle_copied(0x3, &[56 + 6], 100, 8, -8);
    assert_middle_copied(0x4, &[0x00], 0, -8, -8);
    assert_middle_copied(0x4, &[0xF0], 0, -8, 7);
    assert_middle_copied(0x4, &[0x0F], 0, 7, -8);
    assert_middle_copied(0x5, &[0x08, 0xF8], 0, 8, -8);
    assert_middle_copied(0x5, &[0xFD, 0x02], 0, -3, 2);
}

/// Code 3 reads what the same frame has drawn, code 2 what it has not.
#[test]
fn back_copies_read_the_frame_as_drawn_so_far() {
    // 3x1 blocks: block 0 solid 7, block 1 by code 3 from block 0, block 2 untouched.
    let (front, mut back, mut place) = ([0; 192], [5; 192], 0);
    let map = [0x3E, 0x01];
    draw(3, 1, &map, &[7, 0], &front, &mut back, &mut place, 312_000).expect("accepted");
    assert_eq!(back[..24], [[7; 8], [7; 8], [5; 8]].concat());

    // 3x1 blocks: block 0 by code 2 from block 1, block 1 solid 7, block 2 untouched.
    let (mut back, mut place) = ([5; 192], 0);
    let map = [0xE2, 0x01];
    draw(3, 1, &map, &[0, 7], &front, &mut back, &mut place, 312_000).expect("accepted");
    assert_eq!(back[..24], [[5; 8], [7; 8], [5; 8]].concat());
}

/// A source for each kind of block, and none where the rules name none.
#[test]
fn sources() {
    // Code 7 coarse, fields 0 to 7 are ones, of the others the first, 8, alone: pixel 0 is P1, pixel
    // 32 (field 8) too, pixels 34 (field 9) and 63 (field 15) are P0.
    let coarse = hex("22 11 ff 01");
    assert_eq!(source(1, 0x7, &coarse, 0, 0, 0), Some(Source::Data(1)));
    assert_eq!(source(1, 0x7, &coarse, 0, 0, 32), Some(Source::Data(1)));
    assert_eq!(source(1, 0x7, &coarse, 0, 0, 34), Some(Source::Data(0)));
    assert_eq!(source(1, 0x7, &coarse, 0, 0, 63), Some(Source::Data(0)));
    // Pixel 9 is (1, 1) of the block at (8, 16) in a picture of 4 columns, 32 pixels wide:
    // 17 * 32 + 9 = 553.
    assert_eq!(source(4, 0x0, &[], 8, 16, 9), Some(Source::Front(553)));
    assert_eq!(source(4, 0x1, &[], 8, 16, 9), Some(Source::Back(553)));
    assert_eq!(source(4, 0x2, &[0], 8, 16, 9), Some(Source::Back(561)));
    assert_eq!(source(4, 0x3, &[0], 8, 16, 9), Some(Source::Back(545)));
    assert_eq!(source(4, 0x4, &[0x00], 8, 16, 9), Some(Source::Front(289)));
    assert_eq!(source(4, 0x5, &[1, 1], 8, 16, 9), Some(Source::Front(586)));
    // Bytes behind the block are not read.
    assert_eq!(source(1, 0xE, &[1, 2], 0, 0, 63), Some(Source::Data(0)));

    assert_eq!(source(1, 0x6, &[0; 64], 0, 0, 0), None);
    assert_eq!(source(1, 0x10, &[0; 64], 0, 0, 0), None);
    assert_eq!(source(1, 0xE, &[], 0, 0, 0), None);
    assert_eq!(source(1, 0xE, &[1], 0, 0, 64), None);
    // One to the left, above, and to the right of the picture.
    assert_eq!(source(2, 0x5, &[0xFF, 0], 0, 0, 0), None);
    assert_eq!(source(2, 0x5, &[0, 0xFF], 0, 0, 0), None);
    assert_eq!(source(2, 0x5, &[1, 0], 8, 0, 7), None);
    assert_eq!(source(1, 0x0, &[], usize::MAX, usize::MAX, 63), None);
    assert_eq!(source(usize::MAX, 0x0, &[], 0, 0, 0), None);
}

/// One block of each form with the data length of 01's table; the bytes also choose the form.
fn forms() -> Vec<(u8, Vec<u8>)> {
    let with_tail = |head: &str, length: usize| {
        let mut data = hex(head);
        data.resize(length, 0);
        data
    };
    vec![
        (0x0, vec![]),
        (0x1, vec![]),
        (0x4, hex("88")),
        (0x5, hex("00 00")),
        (0x7, with_tail("01 02", 10)),
        (0x7, with_tail("02 01", 4)),
        (0x8, with_tail("01 02", 16)),
        (0x8, with_tail("02 01 00 00 00 00 01 02", 12)),
        (0x8, with_tail("02 01 00 00 00 00 02 01", 12)),
        (0x9, with_tail("01 02 01 02", 20)),
        (0x9, with_tail("01 02 02 01", 8)),
        (0x9, with_tail("02 01 01 02", 12)),
        (0x9, with_tail("02 01 02 01", 12)),
        (0xA, with_tail("01 02", 32)),
        (0xA, with_tail("02 01 00 00 00 00 00 00 00 00 00 00 01 02", 24)),
        (0xA, with_tail("02 01 00 00 00 00 00 00 00 00 00 00 02 01", 24)),
        (0xB, with_tail("", 64)),
        (0xC, with_tail("", 16)),
        (0xD, with_tail("", 4)),
        (0xE, with_tail("", 1)),
        (0xF, with_tail("", 2)),
    ]
}

/// Whether a packet is accepted; its rows are in `rows.rs`.
fn check(columns: usize, rows: usize, map: &[u8], data: &[u8]) -> Result<(), Refusal> {
    reference::check(columns, rows, map, data).map(|_| ())
}

/// Each form takes just its length: every shorter one is 13, also where the bytes that choose the
/// form are missing, and every longer one is 15 in the strict form; in the default one byte more is
/// taken (02, W6).
#[test]
fn lengths() {
    for (code, data) in forms() {
        let case = format!("code {code:X} {data:?}");
        assert_eq!(check(1, 1, &[code], &data), Ok(()), "{case}");
        for length in 0..data.len() {
            let short = Refusal { number: 13, block: 0 };
            let answer = check(1, 1, &[code], &data[..length]);
            assert_eq!(answer, Err(short), "{case} cut to {length}");
        }
        let left = Err(Refusal { number: 15, block: 0 });
        for (over, default, strict) in [(0, Ok(()), Ok(())), (1, Ok(()), left), (2, left, left)] {
            let longer = [&data[..], &[0; 2][..over]].concat();
            let answer = |form| check_as(form, 1, 1, &[code], &longer).map(|_| ());
            assert_eq!(answer(CallForm::Default), default, "{case} and {over}");
            assert_eq!(answer(CallForm::Strict), strict, "{case} and {over}");
        }
    }
}

/// Codes 2 and 3 have one byte; in 2x1 blocks the other one is in reach.
#[test]
fn lengths_of_back_copies() {
    assert_eq!(check(2, 1, &[0x12], &[0]), Ok(()));
    assert_eq!(check(2, 1, &[0x31], &[0]), Ok(()));
    let short = |block| Err(Refusal { number: 13, block });
    assert_eq!(check(2, 1, &[0x12], &[]), short(0));
    assert_eq!(check(2, 1, &[0x31], &[]), short(1));
}

/// Blocks run left to right, then down, and the data in the order of the blocks.
#[test]
fn order_of_blocks() {
    let map = [0xEE, 0xEE, 0xEE];
    let data = [1, 2, 3, 4, 5, 6];
    let blocks = packet::blocks(3, 2, &map, &data).expect("accepted");
    let corners: Vec<_> = blocks.iter().map(|b| (b.x, b.y, b.data[0])).collect();
    let expected = [(0, 0, 1), (8, 0, 2), (16, 0, 3), (0, 8, 4), (8, 8, 5), (16, 8, 6)];
    assert_eq!(corners, expected);
}
