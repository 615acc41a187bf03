//! Every case of document 01's "Checked by hand", marked and unmarked, in its order, and its
//! "Slips that look right". The expected values are the document's, sizes and pattern rows as
//! document 02 has them: its W3 takes fields from the low end of each byte, so a byte's lowest bit is
//! its leftmost field, and of two rows in one byte the low nibble is the upper one. The rows are
//! worked out by hand from 01's bytes.

mod common;

use common::{block, hex};
use reference::block::{copy, BlockCopy, Picture};
use reference::{check, draw, listing, palette, Drawn, Refusal, Rows};

/// The only row of blocks, which is touched (02, W2).
const ROW: Option<Rows> = Some(Rows { first: 0, last: 0 });

fn row(picture: &[u8], width: usize, row: usize) -> &[u8] {
    &picture[row * width..][..width]
}

/// ★ 7, a bit a pixel. Row 0 is ff: all ones. Row 1 is 81: bits 0 and 7, the same from either end.
#[test]
fn two_colours_fine() {
    let picture = block(0x7, &hex("11 22 ff 81 81 81 81 81 81 ff"));
    assert_eq!(row(&picture, 8, 0), [0x22; 8]);
    assert_eq!(row(&picture, 8, 1), hex("22 11 11 11 11 11 11 22"));
}

/// ★ 7, a bit a 2x2: a nibble is two rows of pixels. Rows 0 to 3 are ff. Rows 4 and 5 are the low
/// nibble of 81, 1, whose bits are 1 0 0 0 from the low end; rows 6 and 7 the high one, 8: 0 0 0 1.
#[test]
fn two_colours_coarse() {
    let picture = block(0x7, &hex("22 11 ff 81"));
    for y in 0..4 {
        assert_eq!(row(&picture, 8, y), [0x11; 8]);
    }
    for y in 4..6 {
        assert_eq!(row(&picture, 8, y), hex("11 11 22 22 22 22 22 22"));
    }
    for y in 6..8 {
        assert_eq!(row(&picture, 8, y), hex("22 22 22 22 22 22 11 11"));
    }
}

/// ★ 8, left and right halves: 22 00 with 01 .., 11 66 with 8c ... Row 0 is a low nibble of each: 1,
/// from the low end 1 0 0 0, so 00 22 22 22; and c, from the low end 0 0 1 1, so 11 11 66 66.
#[test]
fn two_colours_left_and_right() {
    let picture = block(0x8, &hex("22 00 01 37 f7 31 11 66 8c e6 73 31"));
    assert_eq!(row(&picture, 8, 0), hex("00 22 22 22 11 11 66 66"));
}

/// ★ 8, top and bottom halves. Row 7 is the last byte, 81: the same from either end.
#[test]
fn two_colours_top_and_bottom() {
    let picture = block(0x8, &hex("22 00 cc 66 33 19 66 11 18 24 42 81"));
    assert_eq!(row(&picture, 8, 7), hex("11 66 66 66 66 66 66 11"));
}

/// ★ 8, quarters. Row 4 is the upper row of the second, 11 33 with cc 33, and of the fourth, 66 77
/// with 01 ef: the low nibbles c, from the low end 0 0 1 1, and 1, from the low end 1 0 0 0.
#[test]
fn two_colours_quarters() {
    let data = hex("00 22 f9 9f 11 33 cc 33 44 55 aa 55 66 77 01 ef");
    let picture = block(0x8, &data);
    assert_eq!(row(&picture, 8, 4), hex("11 11 33 33 77 66 66 66"));
}

/// ★ The vectors of codes 2 and 4.
#[test]
fn motion_vectors() {
    let vector = |code, byte| {
        let BlockCopy { from, dx, dy } = copy(code, &[byte]).expect("a copying code");
        (from, dx, dy)
    };
    assert_eq!(vector(2, 0), (Picture::Back, 8, 0));
    assert_eq!(vector(2, 55), (Picture::Back, 14, 7));
    assert_eq!(vector(2, 56), (Picture::Back, -14, 8));
    assert_eq!(vector(2, 255), (Picture::Back, 11, 14));
    assert_eq!(vector(4, 0x00), (Picture::Front, -8, -8));
    assert_eq!(vector(4, 0x88), (Picture::Front, 0, 0));
    assert_eq!(vector(4, 0xFF), (Picture::Front, 7, 7));
}

/// ★ Gradient 12, 5, 4; and the slip of rounding to nearest: 63·1/4 is 15.
#[test]
fn gradient() {
    let mut entries = [0xAA; 768];
    palette::create_gradient(&[12, 5, 4, 0, 0, 0], &mut entries).expect("taken");
    for (i, red) in [0, 15, 31, 47, 63].into_iter().enumerate() {
        for (j, blue) in [0, 13, 26, 39].into_iter().enumerate() {
            let entry = 12 + i * 4 + j;
            assert_eq!(entries[entry * 3..][..3], [red, 0, blue], "entry {entry}");
        }
    }
    assert_eq!(entries[..12 * 3], [0xAA; 12 * 3]);
    assert_eq!(entries[32 * 3..], [0xAA; 224 * 3]);
}

/// ★ Map byte E1: code 1, then E.
#[test]
fn map_low_nibble_first() {
    let (front, mut back, mut place) = ([1; 128], [5; 128], 0);
    let drawn = draw(2, 1, &[0xE1], &[7], &front, &mut back, &mut place, 312_000);
    // Code 1 has no pixel stores, so the two blocks have 1 and 65.
    let expected = Drawn { whole: true, stores: 66, rows: ROW };
    assert_eq!(drawn, Ok(expected));
    for y in 0..8 {
        assert_eq!(row(&back, 16, y), hex("05050505050505050707070707070707"));
    }
}

/// ★ 16x8 pixels, map E2, data 00 07, back all 5, in one call.
#[test]
fn whole_picture() {
    let (front, mut back, mut place) = ([1; 128], [5; 128], 0);
    let data = [0x00, 0x07];
    let drawn = draw(2, 1, &[0xE2], &data, &front, &mut back, &mut place, 130);
    let expected = Drawn { whole: true, stores: 130, rows: ROW };
    assert_eq!(drawn, Ok(expected));
    assert_eq!(place, 2);
    for y in 0..8 {
        assert_eq!(row(&back, 16, y), hex("05050505050505050707070707070707"));
    }
}

/// ★ The same after 75 stores: the place is 1 and the right block's first 10 pixels are 7. The
/// rest of the drawing must not draw block 0 again, which would now read the 7s (first slip).
#[test]
fn picture_after_75_stores() {
    let (front, mut back, mut place) = ([1; 128], [5; 128], 0);
    let data = [0x00, 0x07];
    let drawn = draw(2, 1, &[0xE2], &data, &front, &mut back, &mut place, 75);
    let unfinished = Drawn { whole: false, stores: 75, rows: ROW };
    assert_eq!(drawn, Ok(unfinished));
    assert_eq!(place, 1);
    assert_eq!(row(&back, 16, 0), hex("05050505050505050707070707070707"));
    assert_eq!(row(&back, 16, 1), hex("05050505050505050707050505050505"));
    assert_eq!(back[32..], [5; 96]);

    // Block 1 from its first pixel again: 64 pixels and the place.
    let drawn = draw(2, 1, &[0xE2], &data, &front, &mut back, &mut place, 65);
    let whole = Drawn { whole: true, stores: 65, rows: ROW };
    assert_eq!(drawn, Ok(whole));
    // Not set back to 0 when the frame is whole (third slip).
    assert_eq!(place, 2);
    for y in 0..8 {
        assert_eq!(row(&back, 16, y), hex("05050505050505050707070707070707"));
    }
}

/// 8x8 pixels: code 5 with 00 00 taken, 01 00 refused 14.
#[test]
fn copies_at_the_edge() {
    assert_eq!(check(1, 1, &[0x05], &[0x00, 0x00]), Ok(ROW));
    let outside = Refusal { number: 14, block: 0 };
    assert_eq!(check(1, 1, &[0x05], &[0x01, 0x00]), Err(outside));
}

/// "01's width cases become 80 taken, 0 and 81 refused" (02, W1); and the rows by the same rule.
#[test]
fn columns_and_rows() {
    assert_eq!(check(80, 1, &[0x11; 40], &[]), Ok(None));
    let size = Refusal { number: 6, block: 0 };
    for columns in [0, 81] {
        assert_eq!(check(columns, 1, &[0x11; 41], &[]), Err(size), "{columns}");
    }
    assert_eq!(check(1, 60, &[0x11; 30], &[]), Ok(None));
    for rows in [0, 61] {
        assert_eq!(check(1, rows, &[0x11; 31], &[]), Err(size), "{rows}");
    }
}

/// The film of the listing case, 82 bytes; its size is `01 00 01 00` (02, W1).
fn listed_film() -> Vec<u8> {
    [
        common::header(),
        hex("0c 00 02 00 04 00 05 00 01 00 01 00 00 00 01 00"),
        hex("24 00 03 00 01 00 0f 00 0e 0f 00 11 00"),
        vec![0; 14],
        hex("2a 04 00 07 00 00 00 00 00 00 00 01 00"),
    ]
    .concat()
}

#[test]
fn listing_case() {
    let film = listed_film();
    assert_eq!(film.len(), 82);
    let expected = "at type version length\n\
                    30 5 0 4\n\
                    38 1 0 0\n\
                    46 15 0 1\n\
                    51 17 0 15\n\
                    70 7 0 4\n\
                    78 1 0 0\n\
                    ended 82\n";
    assert_eq!(listing::list(&film), expected);
}

/// The listing case's frame, which the listing does not print: code E, colour 2a, sent.
#[test]
fn listing_case_frame() {
    let film = listed_film();
    let mut lent = common::Lent::zero(64);
    let (state, refusal) = lent.run(&film);
    assert_eq!(refusal, None);
    assert_eq!((state.front, state.unsent, state.map), (1, false, None));
    let shown = reference::film::shown(&state, &lent.a, &lent.b);
    assert_eq!(shown, [0x2a; 64]);
    assert_eq!(lent.a, [0; 64]);
    assert_eq!(lent.place, 1);
}

/// Slip: a copy past the right edge reads the next line if judged by one linear address. Pixel 9
/// and the seven behind it are inside the 256 bytes, but not inside the 16 of a row.
#[test]
fn slip_linear_address() {
    let outside = |block| Err(Refusal { number: 14, block });
    // 2x2 blocks: code 5 in block 1, one to the right; in block 2 (second row), one to the left.
    assert_eq!(check(2, 2, &[0x51, 0x11], &[0x01, 0x00]), outside(1));
    assert_eq!(check(2, 2, &[0x11, 0x15], &[0xFF, 0x00]), outside(2));
}

/// Slip: 28 zero masks, then 01, set entry 224, not 240.
#[test]
fn slip_entry_240() {
    let body = [&[0; 28][..], &[0x01, 1, 2, 3], &[0; 3]].concat();
    let mut entries = [9; 768];
    palette::set_palette_compressed(&body, &mut entries).expect("taken");
    assert_eq!(entries[..224 * 3], [9; 224 * 3]);
    assert_eq!(entries[224 * 3..][..3], [1, 2, 3]);
    assert_eq!(entries[225 * 3..], [9; 31 * 3]);
}
