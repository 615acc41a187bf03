//! Where pixels come from (02, W9): cases worked out by hand from the rules.

use reference::{origin, Origin, Refusal, Traced};

/// The pixel at (x, y) of a packet for pictures of the frame's own length.
fn traced(
    columns: usize,
    rows: usize,
    map: &[u8],
    data: &[u8],
    (x, y): (usize, usize),
) -> Result<Traced, Refusal> {
    let picture = vec![0; 64 * columns * rows];
    origin(columns, rows, map, data, &picture, &picture, x, y)
}

fn refused(number: u8) -> Result<Traced, Refusal> {
    Err(Refusal { number, block: 0 })
}

/// "Counted from the packet's start", and the byte of the colour, not that of the field that chose it:
/// behind a solid block 01's second case of code 7, with the fields from the low end (W3).
#[test]
fn colour_bytes() {
    let data = [0x09, 0x22, 0x11, 0xFF, 0x81];
    let byte = |x, y| traced(2, 1, &[0x7E], &data, (x, y)).map(|traced| traced.origin);
    for (x, y) in [(0, 0), (7, 7)] {
        assert_eq!(byte(x, y), Ok(Origin::Byte(0)));
    }
    // Rows 0 to 3 are all 11, rows 4 and 5 are 11 11 and six 22, rows 6 and 7 six 22 and 11 11.
    for (x, y, expected) in [(8, 0, 2), (15, 3, 2), (9, 4, 2), (10, 5, 1), (13, 7, 1), (14, 6, 2)] {
        assert_eq!(byte(x, y), Ok(Origin::Byte(expected)), "{x}, {y}");
    }
}

/// Codes B to F: a byte a 1x1, 2x2, 4x4, 8x8, and two in turn.
#[test]
fn cells() {
    let cases: [(u8, usize, [usize; 4]); 5] = [
        (0xB, 64, [0, 7, 8, 63]),
        (0xC, 16, [0, 3, 0, 15]),
        (0xD, 4, [0, 1, 0, 3]),
        (0xE, 1, [0; 4]),
        (0xF, 2, [0, 1, 1, 0]),
    ];
    for (code, length, expected) in cases {
        let places = [(0, 0), (7, 0), (0, 1), (7, 7)];
        for (position, byte) in places.into_iter().zip(expected) {
            let found = Traced { block: 0, code, origin: Origin::Byte(byte) };
            assert_eq!(traced(1, 1, &[code], &vec![0; length], position), Ok(found));
        }
    }
}

/// Codes 0 to 5 name the picture and the pixel copied from.
#[test]
fn copies() {
    // Three columns, two rows; block 1 has the code, the others are kept.
    let name = |code: u8, data: &[u8], position| {
        let map = [0x01 | code << 4, 0x11, 0x11];
        let found = traced(3, 2, &map, data, position)?;
        assert_eq!((found.block, found.code), (1, code));
        Ok::<_, Refusal>(found.origin)
    };
    assert_eq!(name(0, &[], (11, 5)), Ok(Origin::Front((11, 5))));
    assert_eq!(name(1, &[], (11, 5)), Ok(Origin::Back((11, 5))));
    // 00 is (8, 0), 56 is (-14, 8): from (8, 0) that passes the edge, 62 is (-8, 8).
    assert_eq!(name(2, &[0], (11, 5)), Ok(Origin::Back((19, 5))));
    assert_eq!(name(2, &[62], (11, 5)), Ok(Origin::Back((3, 13))));
    assert_eq!(name(2, &[56], (11, 5)), Err(Refusal { number: 14, block: 1 }));
    assert_eq!(name(3, &[0], (11, 5)), Ok(Origin::New((3, 5))));
    // 88 is (0, 0), 8F (7, 0).
    assert_eq!(name(4, &[0x88], (11, 5)), Ok(Origin::Front((11, 5))));
    assert_eq!(name(4, &[0x8F], (11, 5)), Ok(Origin::Front((18, 5))));
    assert_eq!(name(5, &[0xF8, 0x08], (11, 5)), Ok(Origin::Front((3, 13))));
}

/// "Those of checking, with 8 for short pictures in its place, then 22."
#[test]
fn order_of_refusals() {
    let outside = (8, 0);
    assert_eq!(traced(1, 1, &[0x0E], &[7], outside), refused(22));
    assert_eq!(traced(1, 1, &[0x0E], &[7], (0, 8)), refused(22));
    assert_eq!(traced(1, 1, &[0x0E], &[7], (usize::MAX, usize::MAX)), refused(22));
    assert_eq!(traced(1, 1, &[0x0E], &[7, 0], outside), refused(22)); // one byte may be left over
    assert_eq!(traced(1, 1, &[0x0E], &[7, 0, 0], outside), refused(15));
    assert_eq!(traced(1, 1, &[0x05], &[1, 0], outside), refused(14));
    assert_eq!(traced(1, 1, &[0x0E], &[], outside), refused(13));
    assert_eq!(traced(1, 1, &[0x06], &[], outside), refused(12));
    assert_eq!(traced(1, 1, &[], &[], outside), refused(10));
    let (short, long) = ([0; 63], [0; 65]);
    for (front, back) in [(&short[..], &long[..]), (&long, &short)] {
        assert_eq!(origin(1, 1, &[], &[], front, back, 8, 0), refused(8));
        assert_eq!(origin(81, 1, &[], &[], front, back, 8, 0), refused(6));
    }
}
