//! Blocks of films with true colour (02, W7), with layouts worked out by hand from document 01's table, 000's
//! text and the order of fields of W3; the data length of every form in both parts; and the pictures that
//! blocks are copied from.

mod common;

use common::{hex, parted};
use reference::{check_words_as, draw_words, CallForm, Refusal, Rows};

/// Colours as the words that hex digits write, in the order of a packet: low byte first.
fn le(text: &str) -> Vec<u8> {
    words(text).into_iter().flat_map(u16::to_le_bytes).collect()
}

fn words(text: &str) -> Vec<u16> {
    text.split_whitespace().map(|word| u16::from_str_radix(word, 16).expect("a word")).collect()
}

/// Eight rows of colours from the rows given; the last one is repeated to the bottom.
fn layout(rows: &[&str]) -> Vec<u16> {
    let last = rows.len() - 1;
    (0..8).flat_map(|y| words(rows[y.min(last)])).collect()
}

/// The frame of a single block, whose data is all in the first part. The pictures have the high bit set.
fn block(code: u8, first: &[u8]) -> Vec<u16> {
    let (last, oldest, mut new, mut place) = ([0xF0F0; 64], [0xC0DE; 64], vec![0x8BAD; 64], 0);
    let packet = parted(first, &[]);
    let drawn = draw_words(1, 1, &[code], &packet, &last, &oldest, &mut new, &mut place, 312_000)
        .unwrap_or_else(|refusal| panic!("code {code:X}: {refusal}"));
    assert_eq!((drawn.whole, drawn.stores, place), (true, 65, 1));
    new
}

/// A colour is a word with the low byte first, and is stored without its high bit.
#[test]
fn order_of_bytes() {
    assert_eq!(block(0xE, &[0x34, 0x12]), [0x1234; 64]);
    assert_eq!(block(0xE, &[0x34, 0x92]), [0x1234; 64]);
    assert_eq!(block(0xE, &[0xFF, 0xFF]), [0x7FFF; 64]);
    assert_eq!(block(0xE, &[0x00, 0x80]), [0; 64]);
}

/// 7, a bit a pixel: the lowest bit is the leftmost pixel. The second colour is the lower one, which does
/// not matter.
#[test]
fn two_colours_fine() {
    let rows = [
        "0122 0311 0311 0311 0311 0311 0311 0311", // 01
        "0311 0311 0311 0311 0311 0311 0311 0122", // 80
        "0122 0122 0122 0122 0311 0311 0311 0311", // 0f
        "0311 0122 0311 0311 0122 0122 0311 0122", // b2 is 1011 0010
        "0311 0311 0311 0311 0311 0311 0311 0311",
    ];
    for colours in ["0311 0122", "0311 8122"] {
        let data = [le(colours), hex("01 80 0f b2 00 00 00 00")].concat();
        assert_eq!(block(0x7, &data), layout(&rows));
    }
}

/// 7, a bit a 2x2, where the first colour has the high bit; it is the lower one here.
#[test]
fn two_colours_coarse() {
    let rows = [
        "0122 0122 0311 0311 0311 0311 0311 0311",
        "0122 0122 0311 0311 0311 0311 0311 0311",
        "0311 0311 0122 0122 0122 0122 0122 0122",
        "0311 0311 0122 0122 0122 0122 0122 0122",
        "0122 0122 0122 0122 0122 0122 0122 0122",
        "0122 0122 0122 0122 0122 0122 0122 0122",
        "0122 0122 0122 0122 0122 0122 0311 0311",
    ];
    for colours in ["8122 0311", "8122 8311"] {
        assert_eq!(block(0x7, &[le(colours), hex("1e 80")].concat()), layout(&rows));
    }
}

/// 8, quarters: 01's marked case with colours of two bytes. The first colours of the other quarters may
/// have the high bit.
#[test]
fn two_colours_quarters() {
    let rows = [
        "0122 0100 0100 0122 0144 0155 0144 0155",
        "0122 0122 0122 0122 0144 0155 0144 0155",
        "0122 0122 0122 0122 0155 0144 0155 0144",
        "0122 0100 0100 0122 0155 0144 0155 0144",
        "0111 0111 0133 0133 0177 0166 0166 0166",
        "0111 0111 0133 0133 0166 0166 0166 0166",
        "0133 0133 0111 0111 0177 0177 0177 0177",
        "0133 0133 0111 0111 0166 0177 0177 0177",
    ];
    for colours in [
        ["0100 0122", "0111 0133", "0144 0155", "0166 0177"],
        ["0100 8122", "8111 8133", "8144 0155", "8166 0177"],
    ] {
        let fields = ["f9 9f", "cc 33", "aa 55", "01 ef"];
        let data: Vec<u8> =
            colours.iter().zip(fields).flat_map(|(c, f)| [le(c), hex(f)].concat()).collect();
        assert_eq!(data.len(), 24);
        assert_eq!(block(0x8, &data), layout(&rows));
    }
}

/// 8, left and right: the other marked case. The second half begins at byte 8 of the data.
#[test]
fn two_colours_left_and_right() {
    let rows = [
        "0100 0122 0122 0122 0111 0111 0166 0166",
        "0122 0122 0122 0122 0111 0111 0111 0166",
        "0100 0100 0100 0122 0111 0166 0166 0111",
        "0100 0100 0122 0122 0111 0166 0166 0166",
        "0100 0100 0100 0122 0166 0166 0111 0111",
        "0100 0100 0100 0100 0166 0166 0166 0111",
        "0100 0122 0122 0122 0166 0111 0111 0111",
        "0100 0100 0122 0122 0166 0166 0111 0111",
    ];
    let data = [le("8122 0100"), hex("01 37 f7 31"), le("0111 8166"), hex("8c e6 73 31")].concat();
    assert_eq!(data.len(), 16);
    assert_eq!(block(0x8, &data), layout(&rows));
}

/// 8, top and bottom: both halves' first colours have the high bit.
#[test]
fn two_colours_top_and_bottom() {
    let rows = [
        "0122 0122 0100 0100 0122 0122 0100 0100", // cc is 1100 1100
        "0122 0100 0100 0122 0122 0100 0100 0122", // 66
        "0100 0100 0122 0122 0100 0100 0122 0122", // 33
        "0100 0122 0122 0100 0100 0122 0122 0122", // 19 is 0001 1001
        "0166 0166 0166 0111 0111 0166 0166 0166", // 18
        "0166 0166 0111 0166 0166 0111 0166 0166", // 24
        "0166 0111 0166 0166 0166 0166 0111 0166", // 42
        "0111 0166 0166 0166 0166 0166 0166 0111", // 81
    ];
    let data = [le("8122 0100"), hex("cc 66 33 19"), le("8166 0111"), hex("18 24 42 81")].concat();
    assert_eq!(block(0x8, &data), layout(&rows));
}

/// 9, neither pair falling: from the low end 1b is fields 3 2 1 0, 4e fields 2 3 0 1. The high bits of the
/// second and the fourth colour mean nothing.
#[test]
fn four_colours_1x1() {
    for colours in ["0110 0120 0130 0140", "0110 8120 0130 8140"] {
        let data = [le(colours), hex("1b 4e"), vec![0; 13], hex("ff")].concat();
        assert_eq!(data.len(), 24);
        let picture = block(0x9, &data);
        assert_eq!(picture[..8], words("0140 0130 0120 0110 0130 0140 0110 0120"));
        assert_eq!(picture[8..56], [0x0110; 48]);
        assert_eq!(picture[56..], words("0110 0110 0110 0110 0140 0140 0140 0140"));
    }
}

/// 9, the second pair falling: the high bit of the third colour.
#[test]
fn four_colours_2x2() {
    let row_1b = "0140 0140 0130 0130 0120 0120 0110 0110";
    let row_4e = "0130 0130 0140 0140 0110 0110 0120 0120";
    let row_00 = "0110 0110 0110 0110 0110 0110 0110 0110";
    let expected = layout(&[row_1b, row_1b, row_4e, row_4e, row_00]);
    assert_eq!(block(0x9, &[le("0110 0120 8130 0140"), hex("1b 4e 00 00")].concat()), expected);
}

/// 9, the first pair falling: fields 2 wide.
#[test]
fn four_colours_2_wide() {
    let rows = [
        "0140 0140 0130 0130 0120 0120 0110 0110",
        "0130 0130 0140 0140 0110 0110 0120 0120",
        "0110 0110 0110 0110 0110 0110 0110 0110",
    ];
    let data = [le("8110 0120 0130 0140"), hex("1b 4e 00 00 00 00 00 00")].concat();
    assert_eq!(block(0x9, &data), layout(&rows));
}

/// 9, both falling: fields 2 high.
#[test]
fn four_colours_2_high() {
    let row_1b_4e = "0140 0130 0120 0110 0130 0140 0110 0120";
    let row_4e_1b = "0130 0140 0110 0120 0140 0130 0120 0110";
    let row_00 = "0110 0110 0110 0110 0110 0110 0110 0110";
    let rows = [row_1b_4e, row_1b_4e, row_4e_1b, row_4e_1b, row_00];
    let data = [le("8110 0120 8130 0140"), hex("1b 4e 4e 1b 00 00 00 00")].concat();
    assert_eq!(block(0x9, &data), layout(&rows));
}

/// A, quarters: a byte is a row of a quarter. Colours 010x in the first quarter (top-left), 011x in the
/// second (bottom-left), 012x (top-right), 013x (bottom-right). The first colour of each tells nothing
/// but in the first.
#[test]
fn four_colours_quarters() {
    let data = [
        le("0100 0101 8102 0103"),
        hex("1b 4e 1b 4e"),
        le("8110 0111 0112 0113"),
        hex("00 55 aa ff"),
        le("8123 0122 8121 0120"),
        hex("1b 1b 1b 1b"),
        le("0130 0131 0132 0133"),
        hex("ff aa 55 00"),
    ]
    .concat();
    assert_eq!(data.len(), 48);
    let rows = [
        "0103 0102 0101 0100 0120 0121 0122 0123",
        "0102 0103 0100 0101 0120 0121 0122 0123",
        "0103 0102 0101 0100 0120 0121 0122 0123",
        "0102 0103 0100 0101 0120 0121 0122 0123",
        "0110 0110 0110 0110 0133 0133 0133 0133",
        "0111 0111 0111 0111 0132 0132 0132 0132",
        "0112 0112 0112 0112 0131 0131 0131 0131",
        "0113 0113 0113 0113 0130 0130 0130 0130",
    ];
    assert_eq!(block(0xA, &data), layout(&rows));
}

/// A, left and right: the second half begins at byte 16 of the data.
#[test]
fn four_colours_left_and_right() {
    let data = [
        le("8101 0100 0102 0103"),
        hex("1b 1b 1b 1b 00 55 aa ff"),
        le("0110 8111 8113 0112"),
        hex("00 55 aa ff 4e 4e 4e 4e"),
    ]
    .concat();
    assert_eq!(data.len(), 32);
    let rows = [
        "0103 0102 0100 0101 0110 0110 0110 0110",
        "0103 0102 0100 0101 0111 0111 0111 0111",
        "0103 0102 0100 0101 0113 0113 0113 0113",
        "0103 0102 0100 0101 0112 0112 0112 0112",
        "0101 0101 0101 0101 0113 0112 0110 0111",
        "0100 0100 0100 0100 0113 0112 0110 0111",
        "0102 0102 0102 0102 0113 0112 0110 0111",
        "0103 0103 0103 0103 0113 0112 0110 0111",
    ];
    assert_eq!(block(0xA, &data), layout(&rows));
}

/// A, top and bottom: two bytes are a row.
#[test]
fn four_colours_top_and_bottom() {
    let data = [
        le("8101 0100 0102 0103"),
        hex("1b 4e 00 55 aa ff 4e 1b"),
        le("8111 0110 0112 0113"),
        hex("00 00 55 55 aa aa 1b 1b"),
    ]
    .concat();
    let rows = [
        "0103 0102 0100 0101 0102 0103 0101 0100",
        "0101 0101 0101 0101 0100 0100 0100 0100",
        "0102 0102 0102 0102 0103 0103 0103 0103",
        "0102 0103 0101 0100 0103 0102 0100 0101",
        "0111 0111 0111 0111 0111 0111 0111 0111",
        "0110 0110 0110 0110 0110 0110 0110 0110",
        "0112 0112 0112 0112 0112 0112 0112 0112",
        "0113 0112 0110 0111 0113 0112 0110 0111",
    ];
    assert_eq!(block(0xA, &data), layout(&rows));
}

#[test]
fn raw_colours() {
    let colours: Vec<u16> = (0..64).map(|n| 0x0400 + n).collect();
    let bytes = |high: u16| -> Vec<u8> {
        colours.iter().flat_map(|colour| (colour | high).to_le_bytes()).collect()
    };
    assert_eq!(block(0xB, &bytes(0)), colours);
    assert_eq!(block(0xB, &bytes(0x8000)), colours);

    let sixteen =
        le("0100 0101 0102 0103 0110 0111 0112 0113 8120 8121 8122 8123 0130 0131 0132 0133");
    let rows = [
        "0100 0100 0101 0101 0102 0102 0103 0103",
        "0100 0100 0101 0101 0102 0102 0103 0103",
        "0110 0110 0111 0111 0112 0112 0113 0113",
        "0110 0110 0111 0111 0112 0112 0113 0113",
        "0120 0120 0121 0121 0122 0122 0123 0123",
        "0120 0120 0121 0121 0122 0122 0123 0123",
        "0130 0130 0131 0131 0132 0132 0133 0133",
    ];
    assert_eq!(block(0xC, &sixteen), layout(&rows));

    let top = "010a 010a 010a 010a 010b 010b 010b 010b";
    let bottom = "010c 010c 010c 010c 010d 010d 010d 010d";
    let expected = layout(&[top, top, top, top, bottom]);
    assert_eq!(block(0xD, &le("810a 010b 010c 810d")), expected);
}

/// Codes 0, 1 and F have no data: the same block of the last picture, and of the oldest one. What stood in
/// the new one is gone, and copies lose the high bit, too.
#[test]
fn same_blocks() {
    assert_eq!(block(0x0, &[]), [0x70F0; 64]);
    assert_eq!(block(0x1, &[]), [0x40DE; 64]);
    assert_eq!(block(0xF, &[]), [0x40DE; 64]);
}

/// Draws one block in the middle (block 4) of 3x3 blocks, 24x24 pixels. Pixel i of the last picture is i, of
/// the oldest one 1000 and i (hex), of the new one as found 2000 and i; the other blocks are raw, so that
/// it becomes 3000 and i. All have the high bit.
fn middle_block(code: u8, first: &[u8], second: &[u8]) -> Vec<u16> {
    let numbered = |base: u16| -> Vec<u16> { (0..24 * 24).map(|i| 0x8000 + base + i).collect() };
    let raw = |number: usize| -> Vec<u8> {
        let (x, y) = (number % 3 * 8, number / 3 * 8);
        let pixel = |i: usize| 0xB000 + ((y + i / 8) * 24 + x + i % 8) as u16;
        (0..64).flat_map(|i| pixel(i).to_le_bytes()).collect()
    };
    let before: Vec<u8> = (0..4).flat_map(raw).collect();
    let behind: Vec<u8> = (5..9).flat_map(raw).collect();
    let packet = parted(&[&before, first, &behind].concat(), second);
    let map = [0xBB, 0xBB, 0xB0 | code, 0xBB, 0x0B];
    let (last, oldest, mut new, mut place) = (numbered(0), numbered(0x1000), numbered(0x2000), 0);
    let drawn = draw_words(3, 3, &map, &packet, &last, &oldest, &mut new, &mut place, 312_000);
    assert_eq!(drawn.map(|drawn| drawn.stores), Ok(9 * 65));
    new
}

fn assert_middle_copied(code: u8, first: &[u8], second: &[u8], base: isize, way: (isize, isize)) {
    let picture = middle_block(code, first, second);
    for (index, &pixel) in picture.iter().enumerate() {
        let (x, y) = (index % 24, index / 24);
        let inside = (8..16).contains(&x) && (8..16).contains(&y);
        let (base, way) = if inside { (base, way.1 * 24 + way.0) } else { (0x3000, 0) };
        let expected = (base + index as isize + way) as u16;
        assert_eq!(pixel, expected, "code {code:X}, pixel ({x}, {y})");
    }
}

/// Copies take the picture, the vector and the part of the packet that the request says.
#[test]
fn copied_blocks() {
    let (last, oldest, new) = (0, 0x1000, 0x3000);
    assert_middle_copied(0x0, &[], &[], last, (0, 0));
    assert_middle_copied(0x1, &[], &[], oldest, (0, 0));
    assert_middle_copied(0x2, &[], &[0], oldest, (8, 0));
    assert_middle_copied(0x2, &[], &[56 + 6], oldest, (-8, 8));
    assert_middle_copied(0x2, &[], &[56 + 22], oldest, (8, 8));
    assert_middle_copied(0x3, &[], &[0], new, (-8, 0));
    assert_middle_copied(0x3, &[], &[56 + 6], new, (8, -8));
    assert_middle_copied(0x4, &[], &[0x00], last, (-8, -8));
    assert_middle_copied(0x4, &[], &[0xF0], last, (-8, 7));
    assert_middle_copied(0x4, &[], &[0x0F], last, (7, -8));
    assert_middle_copied(0x5, &[0x08, 0xF8], &[], last, (8, -8));
    assert_middle_copied(0x5, &[0xFD, 0x02], &[], last, (-3, 2));
    assert_middle_copied(0x6, &[0x08, 0xF8], &[], oldest, (8, -8));
    assert_middle_copied(0x6, &[0xFD, 0x02], &[], oldest, (-3, 2));
    assert_middle_copied(0xF, &[], &[], oldest, (0, 0));
}

/// Code 2 reads the oldest picture, also where its blocks of the new one are drawn later; code 3 what the
/// frame has drawn.
#[test]
fn later_and_earlier_blocks() {
    // 3x1 blocks: code 2 from the right, solid 7, code 3 from the left.
    let (last, oldest, mut new, mut place) = ([1; 192], [2; 192], [3; 192], 0);
    let packet = parted(&[7, 0], &[0, 0]);
    draw_words(3, 1, &[0xE2, 0x03], &packet, &last, &oldest, &mut new, &mut place, 312_000)
        .expect("accepted");
    for row in new.chunks(24) {
        assert_eq!(row, [[2; 8], [7; 8], [7; 8]].concat());
    }
    assert_eq!((last, oldest), ([1; 192], [2; 192]));
}

/// One block of each form, with the bytes that it takes of both parts: document 01's table with two bytes a
/// colour. The bytes also choose the form.
fn forms() -> Vec<(u8, Vec<u8>, Vec<u8>)> {
    let with_tail = |head: &str, length: usize| {
        let mut data = le(head);
        data.resize(length, 0);
        data
    };
    let first_only = |code, data| (code, data, vec![]);
    vec![
        first_only(0x0, vec![]),
        first_only(0x1, vec![]),
        (0x4, vec![], hex("88")),
        first_only(0x5, hex("00 00")),
        first_only(0x6, hex("00 00")),
        first_only(0x7, with_tail("0002 0001", 4 + 8)),
        first_only(0x7, with_tail("8001 0002", 4 + 2)),
        first_only(0x8, with_tail("0002 0001", 4 * (4 + 2))),
        first_only(0x8, with_tail("8001 0002 0000 0000 0002 8001", 2 * (4 + 4))),
        first_only(0x8, with_tail("8001 0002 0000 0000 8001 0002", 2 * (4 + 4))),
        first_only(0x9, with_tail("0002 0001 0002 0001", 8 + 16)),
        first_only(0x9, with_tail("0002 0001 8001 0002", 8 + 4)),
        first_only(0x9, with_tail("8001 0002 0002 0001", 8 + 8)),
        first_only(0x9, with_tail("8001 0002 8001 0002", 8 + 8)),
        first_only(0xA, with_tail("0002 0001", 4 * (8 + 4))),
        first_only(0xA, with_tail("8001 0002 0 0 0 0 0 0 0002 0001", 2 * (8 + 8))),
        first_only(0xA, with_tail("8001 0002 0 0 0 0 0 0 8001 0002", 2 * (8 + 8))),
        first_only(0xB, with_tail("", 2 * 64)),
        first_only(0xC, with_tail("", 2 * 16)),
        first_only(0xD, with_tail("", 2 * 4)),
        first_only(0xE, with_tail("", 2)),
        first_only(0xF, vec![]),
    ]
}

/// Each form takes just its bytes: a shorter first part is 13, a longer one 15 in both forms of the call. A
/// shorter second part is 13; of a longer one the default takes one byte, the strict form none.
#[test]
fn lengths() {
    let refused = |number| Err(Refusal { number, block: 0 });
    let row = Ok(Rows { first: 0, last: 0 });
    for (code, first, second) in forms() {
        let case = format!("code {code:X} {first:?} {second:?}");
        let check = |form, first: &[u8], second: &[u8]| {
            check_words_as(form, 1, 1, &[code], &parted(first, second))
        };
        for form in CallForm::ALL {
            assert_eq!(check(form, &first, &second), row, "{case}");
            for length in 0..first.len() {
                let answer = check(form, &first[..length], &second);
                assert_eq!(answer, refused(13), "{case} cut to {length}");
                // Bytes of the second part do not help.
                let answer = check(form, &first[..length], &first[length..]);
                assert_eq!(answer, refused(13), "{case} parted at {length}");
            }
            if !second.is_empty() {
                assert_eq!(check(form, &first, &[]), refused(13), "{case}");
                // Nor do bytes of the first.
                assert_eq!(check(form, &second, &[]), refused(13), "{case}");
            }
            for over in 1..=3 {
                let longer = [&first[..], &vec![0; over]].concat();
                assert_eq!(check(form, &longer, &second), refused(15), "{case} and {over}");
            }
        }
        for (over, default, strict) in [(1, row, refused(15)), (2, refused(15), refused(15))] {
            let longer = [&second[..], &vec![0x88; over]].concat();
            assert_eq!(check(CallForm::Default, &first, &longer), default, "{case} and {over}");
            assert_eq!(check(CallForm::Strict, &first, &longer), strict, "{case} and {over}");
        }
    }
}

/// Codes 2 and 3 have one byte of the second part; in 2x1 blocks the other block is in reach.
#[test]
fn lengths_of_other_copies() {
    let check =
        |map, packet: &[u8]| check_words_as(CallForm::Strict, 2, 1, &[map], packet).map(|_| ());
    assert_eq!(check(0x12, &parted(&[], &[0])), Ok(()));
    assert_eq!(check(0x31, &parted(&[], &[0])), Ok(()));
    let short = |block| Err(Refusal { number: 13, block });
    assert_eq!(check(0x12, &parted(&[], &[])), short(0));
    assert_eq!(check(0x31, &parted(&[0], &[])), short(1));
}

/// The parts are used one after the other, each in the order of the blocks: solid, code 4, solid, code 4.
#[test]
fn order_of_blocks() {
    let last: Vec<u16> = (0..256).map(|i| if i % 32 < 16 { 5 } else { 6 }).collect();
    let (oldest, mut new, mut place) = ([2; 256], [3; 256], 0);
    // Code 4 of 80 is (-8, 0).
    let packet = parted(&[7, 0, 8, 0], &[0x80, 0x80]);
    draw_words(4, 1, &[0x4E, 0x4E], &packet, &last, &oldest, &mut new, &mut place, 312_000)
        .expect("accepted");
    for row in new.chunks(32) {
        assert_eq!(row, [[7; 8], [5; 8], [8; 8], [6; 8]].concat());
    }
}
