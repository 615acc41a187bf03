//! The sentences of document 02's W12, in its order, run on the proved library. The expected values are
//! worked out by hand from that document and from source document 001.

use mve::{video1, Error, PICTURE_BYTES};

/// What a lent byte holds before the call.
const LENT: u8 = 0x5A;
const END_MARK: [u8; 2] = [0, 0];

/// A picture of one block of 8x8 that this frame leaves, with a byte behind it.
fn drawn(data: &[u8]) -> Result<[u8; 65], Error> {
    let mut picture = [LENT; 65];
    let told = video1(1, 1, data, &mut picture);
    assert!(told.is_ok() || picture == [LENT; 65], "a refusal changed the picture");
    assert_eq!(picture[64], LENT, "behind the picture");
    told.map(|()| picture)
}

/// The rows of the lower left 4x4 block, from the top one down.
fn lower_left(picture: &[u8; 65]) -> [[u8; 4]; 4] {
    [4, 5, 6, 7].map(|row| std::array::from_fn(|x| picture[8 * row + x]))
}

/// This code for the lower left block; the other three are skipped.
fn block(code: &[u8]) -> [[u8; 4]; 4] {
    let picture = drawn(&[code, &[3, 0x84], &END_MARK].concat()).expect("taken");
    let others = (0..64).filter(|at| at / 8 < 4 || at % 8 >= 4);
    assert!(others.map(|at| picture[at]).all(|byte| byte == LENT), "{code:x?}");
    lower_left(&picture)
}

/// "4x4 blocks, bottom row first"
#[test]
fn order_of_blocks() {
    let data = [1, 0x80, 2, 0x80, 3, 0x80, 4, 0x80, 0, 0];
    let picture = drawn(&data).expect("taken");
    for (at, &byte) in picture[..64].iter().enumerate() {
        let expected = match (at / 8 < 4, at % 8 < 4) {
            (false, true) => 1,
            (false, false) => 2,
            (true, true) => 3,
            (true, false) => 4,
        };
        assert_eq!(byte, expected, "{at}");
    }
}

/// "skips": byte b less 0x84 counts 256 blocks, and byte a single ones. A skip of 0 passes none.
#[test]
fn skips() {
    // 80 by 60 blocks of 8x8: 160 by 120 of 4x4.
    let blocks = 160 * 120;
    for count in [0, 1, 2, 255, 256, 511, 512, 767, 768, 1022, 1023] {
        let skip = |n: usize| [n as u8, 0x84 + (n / 256) as u8];
        let mut data = [&skip(count)[..], &[9, 0x80]].concat();
        let mut left = blocks - count - 1;
        while left > 0 {
            let next = left.min(1023);
            data.extend(skip(next));
            left -= next;
        }
        data.extend(END_MARK);
        let mut picture = vec![LENT; PICTURE_BYTES];
        assert_eq!(video1(80, 60, &data, &mut picture), Ok(()), "{count}");
        let (left, bottom) = (4 * (count % 160), 479 - 4 * (count / 160));
        for (at, &byte) in picture.iter().enumerate() {
            let (x, y) = (at % 640, at / 640);
            let is_inside = (left..left + 4).contains(&x) && (bottom - 3..=bottom).contains(&y);
            assert_eq!(byte, if is_inside { 9 } else { LENT }, "{count}: {x}, {y}");
        }
    }
}

/// "one, two or eight colours": the whole table of byte b.
#[test]
fn colours() {
    for b in 0x00..=0xFF {
        // Colours 10 to 17 behind a and b: more than a code of fewer uses.
        let colours = [10, 11, 12, 13, 14, 15, 16, 17];
        let of = |i: usize, pair: usize| {
            let flags = 0xA5 | usize::from(b) << 8;
            10 + 2 * pair as u8 + u8::from(flags >> i & 1 == 0)
        };
        let pixels = |pair: fn(usize) -> usize| {
            [3, 2, 1, 0].map(|row| {
                [0, 1, 2, 3].map(|x| {
                    let i = 4 * row + x;
                    of(i, pair(i))
                })
            })
        };
        let (long, expected) = match b {
            0x84..=0x87 => continue,
            0x00..=0x7F => (2, pixels(|_| 0)),
            0x90..=0xFF => (8, pixels(|i| i / 8 * 2 + i % 4 / 2)),
            _ => (0, [[0xA5; 4]; 4]),
        };
        let code = [&[0xA5, b], &colours[..long]].concat();
        assert_eq!(block(&code), expected, "{b:02x}");
    }
    // Document 001's examples: bit 0 of a is the lower left pixel; bit 7 of b takes quad4_a for the top
    // right corner.
    let one_bit = block(&[0x01, 0x00, 7, 8]);
    assert_eq!((one_bit[3][0], one_bit[3][1], one_bit[0][0]), (7, 8, 8));
    let eight = [0x00, 0x90, 1, 2, 3, 4, 5, 6, 7, 8];
    assert_eq!(block(&eight), [[5, 6, 8, 7], [6, 6, 8, 8], [2, 2, 4, 4], [2, 2, 4, 4]]);
}

/// "The end mark 00 00 counts only after all blocks; until then it is a two-colour block."
#[test]
fn end_mark() {
    let picture = drawn(&[0, 0, 7, 8, 3, 0x84, 0, 0]).expect("taken");
    assert_eq!(lower_left(&picture), [[8; 4]; 4]);
    assert_eq!(drawn(&[0, 0]), Err(Error::FrameShort));
    for behind in [&[][..], &[0], &[0, 1], &[1, 0], &[0, 0, 0], &[0, 0, 0, 0], &[0x00, 0x84]] {
        assert_eq!(drawn(&[&[4, 0x84], behind].concat()), Err(Error::EndMark), "{behind:?}");
    }
}

/// "Skipped blocks stay as lent."
#[test]
fn skipped_blocks() {
    assert_eq!(drawn(&[4, 0x84, 0, 0]), Ok([LENT; 65]));
    assert_eq!(drawn(&[0, 0x84, 4, 0x84, 0, 0]), Ok([LENT; 65]));
}

/// "Sizes are in W1's blocks and limits"
#[test]
fn sizes() {
    let frame = |columns: usize, rows: usize| {
        let mut data = [7, 0x80].repeat(4 * columns * rows);
        data.extend(END_MARK);
        data
    };
    for (columns, rows) in [(1, 1), (80, 60), (80, 1), (1, 60), (40, 30)] {
        let mut picture = vec![LENT; 64 * columns * rows + 1];
        assert_eq!(video1(columns, rows, &frame(columns, rows), &mut picture), Ok(()));
        assert_eq!(picture.pop(), Some(LENT));
        assert_eq!(picture, vec![7; 64 * columns * rows]);
    }
    let far = usize::MAX;
    for (columns, rows) in
        [(0, 1), (1, 0), (81, 1), (1, 61), (0, 0), (far, 1), (1, far), (far, far)]
    {
        let mut picture = vec![LENT; 400_000];
        let told = video1(columns, rows, &frame(1, 1), &mut picture);
        assert_eq!(told, Err(Error::FrameSize), "{columns} by {rows}");
        assert!(picture.iter().all(|&byte| byte == LENT));
    }
}

/// "Refusals: 6 size, 8 short picture, then, the first met, 24 data short before all blocks are passed, 25 a
/// skip that passes the last block, 26 not the end mark alone after it."
#[test]
fn refusals() {
    // 6 before 8, and 8 before 24.
    assert_eq!(video1(81, 1, &[], &mut []), Err(Error::FrameSize));
    assert_eq!(video1(1, 1, &[], &mut [LENT; 63]), Err(Error::LentLength));
    // 24: no code, half a code, a code without its colours.
    for data in [&[][..], &[1], &[1, 0x80], &[1, 0x00, 5], &[1, 0x90, 1, 2, 3, 4, 5, 6, 7]] {
        assert_eq!(drawn(data), Err(Error::FrameShort), "{data:x?}");
    }
    // 24 before 25, in one code: a skip is two bytes, so one byte of it is data that is short.
    assert_eq!(drawn(&[5]), Err(Error::FrameShort));
    // 25, whatever stands behind it.
    for data in [&[5, 0x84][..], &[5, 0x84, 0, 0], &[0, 0x85], &[0xFF, 0x87], &[1, 0x80, 4, 0x84]] {
        assert_eq!(drawn(data), Err(Error::SkipOutside), "{data:x?}");
    }
    // The first met: short data at the last block hides what would follow; a skip before it is met first.
    assert_eq!(drawn(&[3, 0x84, 1, 0x00, 5]), Err(Error::FrameShort));
    assert_eq!(drawn(&[3, 0x84, 2, 0x84, 1]), Err(Error::SkipOutside));
    // A block is stored nowhere where a later code is refused.
    assert_eq!(drawn(&[1, 0x80, 2, 0x80, 3, 0x80, 4, 0x80, 9]), Err(Error::EndMark));
}
