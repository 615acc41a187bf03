//! Frames of Microsoft Video 1: source document 001's layouts, and 02's rules for W12.

mod common;

use common::hex;
use reference::video1::decode;
use reference::Refusal;

/// A picture of one block of 8x8 that holds 55 before, or the refusal, which must leave it.
fn picture(frame: &str) -> Result<Vec<u8>, u8> {
    let mut picture = vec![0x55; 65];
    let answer = decode(1, 1, &hex(frame), &mut picture);
    assert_eq!(picture.pop(), Some(0x55), "the byte behind the picture");
    match answer {
        Ok(()) => Ok(picture),
        Err(Refusal { number, block }) => {
            assert_eq!((block, picture), (0, vec![0x55; 64]), "a refusal leaves the picture");
            Err(number)
        }
    }
}

/// The lower left block where this code gives it, the top row first.
fn block(code: &str) -> Vec<u8> {
    let picture = picture(&format!("{code} 03 84 00 00")).expect("taken");
    picture[32..].chunks(8).flat_map(|row| row[..4].to_vec()).collect()
}

/// 001: "b4 b5 b6 b7 / b0 b1 b2 b3 / a4 a5 a6 a7 / a0 a1 a2 a3", color_a where the bit is 1.
#[test]
fn two_colours() {
    for (flag, place) in [
        ("01 00", 12),
        ("02 00", 13),
        ("04 00", 14),
        ("08 00", 15),
        ("10 00", 8),
        ("20 00", 9),
        ("40 00", 10),
        ("80 00", 11),
        ("00 01", 4),
        ("00 02", 5),
        ("00 04", 6),
        ("00 08", 7),
        ("00 10", 0),
        ("00 20", 1),
        ("00 40", 2),
    ] {
        let mut expected = vec![0xB; 16];
        expected[place] = 0xA;
        assert_eq!(block(&format!("{flag} 0A 0B")), expected, "{flag}");
    }
    assert_eq!(block("FF 7F 0A 0B"), hex("0A 0A 0A 0B 0A 0A 0A 0A 0A 0A 0A 0A 0A 0A 0A 0A"));
}

/// 001: the quads, "if bit 7 of byte_b is 1 then the color represented by quad4_a is placed in the top right
/// corner of the 4x4 block".
#[test]
fn eight_colours() {
    let colours = "1A 1B 2A 2B 3A 3B 4A 4B";
    let first = "3A 3A 4A 4A  3A 3A 4A 4A  1A 1A 2A 2A  1A 1A 2A 2A";
    assert_eq!(block(&format!("FF FF {colours}")), hex(first));
    let second = "3A 3B 4B 4A  3B 3B 4B 4B  1B 1B 2B 2B  1B 1B 2B 2B";
    assert_eq!(block(&format!("00 90 {colours}")), hex(second));
    let mixed = "3B 3B 4A 4A  3B 3B 4B 4A  1A 1B 2B 2A  1A 1A 2B 2A";
    assert_eq!(block(&format!("9B C8 {colours}")), hex(mixed));
}

/// 001: 80 to 83, 88 to 8F, byte_a for the whole block.
#[test]
fn one_colour() {
    for b in (0x80..=0x83).chain(0x88..=0x8F) {
        assert_eq!(block(&format!("2A {b:02X}")), vec![0x2A; 16], "{b:02X}");
    }
}

/// Blocks run left to right, from the bottom row of the picture up.
#[test]
fn order() {
    let drawn = picture("01 80 02 80 03 80 04 80 00 00").expect("taken");
    let rows = ["03 03 03 03 04 04 04 04", "01 01 01 01 02 02 02 02"].map(hex);
    let expected: Vec<u8> = rows.iter().flat_map(|row| row.repeat(4)).collect();
    assert_eq!(drawn, expected);
}

/// Skipped blocks stay; a skip of none passes none, and 256 blocks are counted by b.
#[test]
fn skips() {
    assert_eq!(picture("04 84 00 00"), Ok(vec![0x55; 64]));
    let drawn = picture("00 84 02 84 00 84 09 80 01 84 00 00").expect("taken");
    let blocks = [drawn[0], drawn[4], drawn[32], drawn[36]];
    assert_eq!(blocks, [9, 0x55, 0x55, 0x55]);
    // 8 by 8 blocks of 8x8: 256 of 4x4.
    let mut wide = vec![0x55; 4096];
    assert_eq!(decode(8, 8, &hex("00 85 00 00"), &mut wide), Ok(()));
    assert_eq!(wide, vec![0x55; 4096]);
    assert_eq!(decode(8, 8, &hex("FF 84 09 80 00 00"), &mut wide), Ok(()));
    assert_eq!((wide[59], wide[60], wide[3 * 64 + 63], wide[4 * 64 + 63]), (0x55, 9, 9, 0x55));
}

/// 02: "The end mark 00 00 counts only after all blocks; until then it is a two-colour block."
#[test]
fn end_mark() {
    assert_eq!(block("00 00 0A 0B"), vec![0xB; 16]);
    assert_eq!(picture("04 84"), Err(26));
    assert_eq!(picture("04 84 00"), Err(26));
    assert_eq!(picture("04 84 00 01"), Err(26));
    assert_eq!(picture("04 84 01 00"), Err(26));
    assert_eq!(picture("04 84 00 00 00"), Err(26));
    assert_eq!(picture("04 84 00 84 00 00"), Err(26), "a skip of none behind the last block");
}

/// 02: "Refusals: 6 size, 8 short picture, then, the first met, 24 .., 25 .., 26".
#[test]
fn refusals() {
    let refused = |number| Err(Refusal { number, block: 0 });
    for (columns, rows) in [(0, 1), (81, 1), (1, 0), (1, 61), (usize::MAX, usize::MAX)] {
        assert_eq!(decode(columns, rows, &[], &mut []), refused(6));
    }
    assert_eq!(decode(1, 1, &[], &mut [0; 63]), refused(8));
    for short in ["", "01", "01 00", "01 00 0A", "01 90 01 02 03 04 05 06 07", "03 84 01"] {
        assert_eq!(picture(short), Err(24), "{short}");
    }
    assert_eq!(picture("05 84 00 00"), Err(25));
    assert_eq!(picture("09 80 04 84 00 00"), Err(25));
    assert_eq!(picture("05 84 01 00 0A"), Err(25), "the skip is met first");
    assert_eq!(picture("03 84 01 00 0A"), Err(24), "the short block is met first");
}
