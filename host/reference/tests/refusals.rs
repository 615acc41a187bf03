//! The numbers of refusal of checking and drawing (6, 8, 10 to 15), their order, and that a
//! refused or limited call leaves what it must.

mod common;

use reference::{draw, Refusal};

/// Whether a packet is accepted; its rows are in `rows.rs`.
fn check(columns: usize, rows: usize, map: &[u8], data: &[u8]) -> Result<(), Refusal> {
    reference::check(columns, rows, map, data).map(|_| ())
}

fn refused<T>(number: u8) -> Result<T, Refusal> {
    Err(Refusal { number, block: 0 })
}

fn refused_in<T>(number: u8, block: usize) -> Result<T, Refusal> {
    Err(Refusal { number, block })
}

/// 6: every number that is not 1 to 80 columns or 1 to 60 rows.
#[test]
fn number_6_size() {
    let accepted_if = |legal| if legal { Ok(()) } else { refused(6) };
    for blocks in 0..1000_usize {
        let map = vec![0x11; blocks.div_ceil(2)];
        let (columns, rows) = ((1..=80).contains(&blocks), (1..=60).contains(&blocks));
        assert_eq!(check(blocks, 1, &map, &[]), accepted_if(columns), "{blocks} columns");
        assert_eq!(check(1, blocks, &map, &[]), accepted_if(rows), "{blocks} rows");
    }
    // The low half of the first is 1; of the next two the product by 8 or 64 is that of 1, if it
    // wraps around.
    for large in [(1 << 32) + 1, (1 << 61) + 1, (1 << 58) + 1, usize::MAX] {
        assert_eq!(check(large, 1, &[0x11], &[]), refused(6));
        assert_eq!(check(1, large, &[0x11], &[]), refused(6));
    }
    assert_eq!(check(0, 0, &[], &[]), refused(6));
    assert_eq!(check(81, 61, &[0x11; 2471], &[]), refused(6));
    assert_eq!(check(80, 60, &[0x11; 2400], &[]), Ok(()));
}

/// 8: a picture one byte too short; a longer one is taken. Checking lends no pictures.
#[test]
fn number_8_pictures() {
    for (front, back, taken) in [(64, 64, true), (63, 64, false), (64, 63, false), (90, 80, true)] {
        let (front, mut back, mut place) = (vec![1; front], vec![2; back], 0);
        let drawn = draw(1, 1, &[0x0], &[], &front, &mut back, &mut place, 312_000);
        assert_eq!(drawn.is_ok(), taken);
        if !taken {
            assert_eq!(drawn, refused(8));
        }
    }
}

/// 10: the map has one nibble a block; of an odd number of blocks one nibble is spare, not read.
#[test]
fn number_10_map_length() {
    for length in 0..6 {
        let map = vec![0x11; length];
        let expected = if length == 2 { Ok(()) } else { refused(10) };
        assert_eq!(check(3, 1, &map, &[]), expected, "3 blocks, {length}");
        assert_eq!(check(2, 2, &map, &[]), expected, "4 blocks, {length}");
    }
    for spare in 0..16 {
        assert_eq!(check(3, 1, &[0x11, spare << 4 | 0x1], &[]), Ok(()));
    }
}

/// 11: a place equal to the block count is taken, one above is not.
#[test]
fn number_11_place() {
    let (front, mut back) = ([1; 128], [2; 128]);
    let mut place = 2;
    let drawn = draw(2, 1, &[0x00], &[], &front, &mut back, &mut place, 0).expect("accepted");
    assert_eq!((drawn.whole, drawn.stores, place), (true, 0, 2));
    for above in [3, usize::MAX] {
        let mut place = above;
        let drawn = draw(2, 1, &[0x00], &[], &front, &mut back, &mut place, 312_000);
        assert_eq!((drawn, place), (refused(11), above));
    }
    assert_eq!(back, [2; 128]);
}

/// A place equal to the block count still has the whole packet checked.
#[test]
fn finished_packet_is_checked() {
    let (front, mut back, mut place) = ([1; 128], [2; 128], 2);
    let drawn = draw(2, 1, &[0xE6], &[7], &front, &mut back, &mut place, 312_000);
    assert_eq!(drawn, refused_in(12, 0));
}

#[test]
fn number_12_code_6() {
    assert_eq!(check(1, 1, &[0x6], &[]), refused_in(12, 0));
    assert_eq!(check(3, 1, &[0x61, 0x01], &[]), refused_in(12, 1));
    assert_eq!(check(3, 1, &[0x11, 0x06], &[]), refused_in(12, 2));
}

#[test]
fn number_13_too_few_data_bytes() {
    assert_eq!(check(3, 1, &[0xEE, 0x0E], &[1, 2]), refused_in(13, 2));
    assert_eq!(check(3, 1, &[0xEE, 0x0E], &[1]), refused_in(13, 1));
    assert_eq!(check(3, 1, &[0xEE, 0x0E], &[]), refused_in(13, 0));
    // Code 5 with one of its two bytes, which alone would already point outside.
    assert_eq!(check(1, 1, &[0x5], &[0x01]), refused_in(13, 0));
}

/// 14, by one pixel at each edge, for each code that has a vector. The picture is 3x3 blocks and the
/// block 4, in its middle, can move by 8 in each direction.
#[test]
fn number_14_copy_outside() {
    let answer = |code: u8, data: &[u8]| {
        let map = [0x11, 0x11, 0x10 | code, 0x11, 0x01];
        check(3, 3, &map, data)
    };
    for (dx, dy) in [(8, 0), (0, 8), (-8, 0), (0, -8), (8, 8), (-8, -8)] {
        assert_eq!(answer(0x5, &[dx as u8, dy as u8]), Ok(()), "({dx}, {dy})");
    }
    for (dx, dy) in [(9, 0), (0, 9), (-9, 0), (0, -9), (127, 127), (-128, -128)] {
        let data = [dx as u8, dy as u8];
        assert_eq!(answer(0x5, &data), refused_in(14, 4), "({dx}, {dy})");
    }
    // Code 2: 0 is (8, 0), 1 (9, 0), 7 (8, 1), 61 (-9, 8), 62 (-8, 8), 78 (8, 8), 79 (9, 8).
    for (byte, taken) in [(0, true), (1, false), (7, true), (61, false), (62, true)] {
        assert_eq!(answer(0x2, &[byte]).is_ok(), taken, "code 2 with {byte}");
        assert_eq!(answer(0x3, &[byte]).is_ok(), taken, "code 3 with {byte}");
    }
    // 91 is (-8, 9) in code 2 and (8, -9) in code 3: below and above.
    assert_eq!(answer(0x2, &[91]), refused_in(14, 4));
    assert_eq!(answer(0x3, &[91]), refused_in(14, 4));
    // Code 4 reaches 8 to the left and up, 7 to the right and down: never outside from here.
    assert!((0..=255).all(|byte| answer(0x4, &[byte]).is_ok()));
}

/// Code 4 in the corners of a picture of 2x2 blocks: 7 is the low nibble of (-1, 0), 9 of (1, 0).
#[test]
fn number_14_code_4() {
    let in_first = |byte| check(2, 2, &[0x14, 0x11], &[byte]);
    let in_last = |byte| check(2, 2, &[0x11, 0x41], &[byte]);
    for (byte, first, last) in [
        (0x88, Ok(()), Ok(())),
        (0x87, refused_in(14, 0), Ok(())),
        (0x78, refused_in(14, 0), Ok(())),
        (0x89, Ok(()), refused_in(14, 3)),
        (0x98, Ok(()), refused_in(14, 3)),
    ] {
        assert_eq!(in_first(byte), first, "{byte:x}");
        assert_eq!(in_last(byte), last, "{byte:x}");
    }
}

/// 15: two bytes or more (02, W6). The strict form is in `odd_byte.rs`.
#[test]
fn number_15_bytes_left_over() {
    assert_eq!(check(1, 1, &[0xE], &[1]), Ok(()));
    assert_eq!(check(1, 1, &[0xE], &[1, 2]), Ok(()));
    assert_eq!(check(1, 1, &[0xE], &[1, 2, 3]), refused(15));
    assert_eq!(check(1, 1, &[0x1], &[0; 70_000]), refused(15));
}

/// The order 6, 10, then block by block 12, 13, 14, then 15: each packet has this fault and all
/// later ones.
#[test]
fn order_of_checking() {
    // Block 0 copies outside (14), block 1 has code 6 (12); two bytes are left over (15).
    let outside_then_6 = [0x65];
    let data = [0xFF, 0x00, 0xAA, 0xAA];
    assert_eq!(check(81, 1, &[0; 9], &data), refused(6));
    assert_eq!(check(2, 1, &[0; 9], &data), refused(10));
    assert_eq!(check(2, 1, &outside_then_6, &data), refused_in(14, 0));
    // Block 0 lacks data (13), block 1 has code 6 (12): the lower block is named.
    assert_eq!(check(2, 1, &[0x65], &[0x01]), refused_in(13, 0));
    // Block 0 has code 6 (12) and block 1 lacks data.
    assert_eq!(check(2, 1, &[0xE6], &[]), refused_in(12, 0));
    // Block 1 copies outside (14) with bytes left over (15).
    assert_eq!(check(2, 1, &[0x51], &[1, 0, 0, 0]), refused_in(14, 1));
}

/// The order 6, 8, 10, 11, 12 to 15 of drawing, and that a refused call changes nothing.
#[test]
fn order_of_drawing() {
    let refuse = |columns: usize, pixels: usize, map: &[u8], at: usize| {
        let (front, mut back, mut place) = (vec![1; pixels], vec![2; pixels], at);
        let drawn = draw(columns, 1, map, &[9, 9], &front, &mut back, &mut place, 312_000);
        assert_eq!(back, vec![2; pixels]);
        assert_eq!(place, at);
        drawn
    };
    // Each line mends the first fault of the one before it.
    assert_eq!(refuse(0, 10, &[], 9), refused(6));
    assert_eq!(refuse(2, 10, &[], 9), refused(8));
    assert_eq!(refuse(2, 128, &[], 9), refused(10));
    assert_eq!(refuse(2, 128, &[0x6E], 9), refused(11));
    assert_eq!(refuse(2, 128, &[0x6E], 1), refused_in(12, 1));
    assert_eq!(refuse(2, 128, &[0xFE], 1), refused_in(13, 1));
    assert_eq!(refuse(2, 128, &[0x12], 1), refused_in(14, 0));
    assert_eq!(refuse(2, 128, &[0x11], 1), refused(15));
}

/// Bytes of a lent picture beyond the size are never touched, and front never at all.
#[test]
fn only_the_frame_is_drawn_on() {
    let (front, mut back, mut place) = ([1; 100], [2; 100], 0);
    draw(1, 1, &[0x0], &[], &front, &mut back, &mut place, 312_000).expect("accepted");
    assert_eq!(back[..64], [1; 64]);
    assert_eq!(back[64..], [2; 36]);
    assert_eq!(front, [1; 100]);
}

/// Allowed n, a call makes the first n stores: n pixels row by row, at 65 also the place.
#[test]
fn first_stores() {
    let data: Vec<u8> = (100..164).collect();
    for allowed in 0..=70 {
        let (front, mut back, mut place) = ([1; 64], [2; 64], 0);
        let drawn = draw(1, 1, &[0xB], &data, &front, &mut back, &mut place, allowed);
        let pixels = allowed.min(64);
        let drawn = drawn.map(|drawn| (drawn.whole, drawn.stores));
        assert_eq!(drawn, Ok((allowed >= 65, allowed.min(65))), "allowed {allowed}");
        assert_eq!(place, usize::from(allowed >= 65));
        assert_eq!(back[..pixels], data[..pixels]);
        assert!(back[pixels..].iter().all(|&pixel| pixel == 2));
    }
}

/// A code 1 block has the store of the place alone, and 80x60 blocks at most 312,000 stores.
#[test]
fn store_counts() {
    let pixels = 64 * 80 * 60;
    let (front, mut back, mut place) = (vec![1; pixels], vec![2; pixels], 0);
    let drawn = draw(80, 60, &[0x11; 2400], &[], &front, &mut back, &mut place, 312_000);
    assert_eq!(drawn.map(|drawn| drawn.stores), Ok(4_800));
    assert_eq!(place, 4_800);
    assert!(back.iter().all(|&pixel| pixel == 2));
    place = 0;
    let drawn = draw(80, 60, &[0x00; 2400], &[], &front, &mut back, &mut place, usize::MAX);
    assert_eq!(drawn.map(|drawn| drawn.stores), Ok(312_000));
    assert!(back.iter().all(|&pixel| pixel == 1));
}

/// Messages are distinct, and carry the number and, for 12 to 14, the block.
#[test]
fn messages() {
    let reasons: std::collections::BTreeSet<_> =
        (1..=16).map(|number| Refusal { number, block: 0 }.reason()).collect();
    assert_eq!(reasons.len(), 16);
    let outside = Refusal { number: 14, block: 77 };
    let expected = "refused 14 in block 77: copied block not inside the picture";
    assert_eq!(outside.to_string(), expected);
    let left = Refusal { number: 15, block: 0 };
    let expected = "refused 15: data bytes left over behind the last block";
    assert_eq!(left.to_string(), expected);
}
