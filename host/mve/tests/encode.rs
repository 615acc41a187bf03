//! The sentences of document 02's W10, in its order, run on the proved library. The expected values are
//! worked out by hand from the documents.

use mve::{check_strict, draw_strict, encode, Drawn, Error, Refusal};
use mve::{ALL_STORES, BODY_BYTES, MAP_BYTES, PICTURE_BYTES};

/// Map and packet of a wanted picture. The 14 bytes in front of the packet are zero, what lies behind both
/// stays, and drawing them in strict form gives the wanted picture and leaves what back has beyond it.
fn encoded(
    columns: usize,
    rows: usize,
    wanted: &[u8],
    front: &[u8],
    back: &[u8],
) -> (Vec<u8>, Vec<u8>) {
    let (mut map, mut body) = (vec![0x5A; MAP_BYTES + 1], vec![0x5A; BODY_BYTES + 1]);
    let told = encode(columns, rows, wanted, front, back, &mut map, &mut body).expect("made");
    assert!(map[told.map_length..].iter().all(|&byte| byte == 0x5A), "behind the map");
    assert!(body[told.body_length..].iter().all(|&byte| byte == 0x5A), "behind the body");
    map.truncate(told.map_length);
    body.truncate(told.body_length);
    assert_eq!(body[..14], [0; 14]);
    let packet = body.split_off(14);

    assert!(check_strict(columns, rows, &map, &packet).is_ok());
    let (pixels, mut drawn, mut place) = (64 * columns * rows, back.to_vec(), 0);
    let told = draw_strict(columns, rows, &map, &packet, front, &mut drawn, &mut place, ALL_STORES);
    assert!(matches!(told, Ok(Drawn::Whole { .. })), "{told:?}");
    assert_eq!((&drawn[..pixels], &drawn[pixels..]), (&wanted[..pixels], &back[pixels..]));
    (map, packet)
}

/// Code and data of one block on a front of ones and a back of twos.
fn block(pixel: impl Fn(usize, usize) -> u8) -> (u8, Vec<u8>) {
    let wanted: Vec<u8> = (0..64).map(|i| pixel(i % 8, i / 8)).collect();
    let (map, packet) = encoded(1, 1, &wanted, &[1; 64], &[2; 64]);
    assert_eq!(map.len(), 1);
    (map[0], packet)
}

/// "From a wanted 8-bit picture, front and back, write map and packet. Decoding them in strict form gives
/// the wanted picture exactly."
#[test]
fn pictures() {
    // Five blocks in a row: of front, of back, of both, of one colour, and of 64.
    let of = |block: usize, i: usize| match block {
        0 => [i as u8, 9, i as u8],
        1 => [9, i as u8, i as u8],
        2 => [7, 7, 7],
        3 => [9, 8, 3],
        _ => [1, 2, (3 * i) as u8],
    };
    let picture = |which: usize| -> Vec<u8> {
        let at = |i: usize| (i % 40 / 8, i / 40 * 8 + i % 8);
        let inside = (0..320).map(|i| of(at(i).0, at(i).1)[which]);
        inside.chain([which as u8; 5]).collect()
    };
    let [front, back, wanted] = [0, 1, 2].map(picture);
    let (map, packet) = encoded(5, 1, &wanted, &front, &back);
    assert_eq!(map, [0x10, 0xE0, 0x0B]);
    let raw: Vec<u8> = (0..64).map(|i| (3 * i) as u8).collect();
    assert_eq!(packet, [&[3][..], &raw].concat());
}

/// "For each block, no choice among codes 0, 1, 7, B, C, D, E and F reproduces it in fewer data bytes;
/// ties go to the lower code."
#[test]
fn choices() {
    assert_eq!(block(|_, _| 1), (0, vec![]));
    assert_eq!(block(|_, _| 2), (1, vec![]));
    assert_eq!(block(|_, _| 3), (14, vec![3]));
    assert_eq!(block(|x, y| [5, 3][(x + y) % 2]), (15, vec![5, 3]));
    // Both 7 and D have four bytes for quarters of two colours: 7. A set bit is the lower colour.
    let left = |x: usize, _: usize| if x < 4 { 3 } else { 5 };
    assert_eq!(block(left), (7, vec![5, 3, 0x33, 0x33]));
    assert_eq!(block(|x, y| 8 - left(x, y)), (7, vec![5, 3, 0xCC, 0xCC]));
    assert_eq!(block(|x, y| [3, 4, 5, 4][y / 4 * 2 + x / 4]), (13, vec![3, 4, 5, 4]));
    // A pixel apart: a bit a pixel, with the lower colour first. A set bit is the higher one.
    let corner = |x: usize, y: usize| if (x, y) == (7, 0) { 3 } else { 5 };
    let marks = [0x7F, 0xFF, 0xFF, 0xFF, 0xFF, 0xFF, 0xFF, 0xFF];
    assert_eq!(block(corner), (7, [&[3, 5][..], &marks].concat()));
    assert_eq!(block(|x, y| 8 - corner(x, y)), (7, [&[3, 5][..], &marks.map(|m: u8| !m)].concat()));
    let twos: Vec<u8> = (10..26).collect();
    assert_eq!(block(|x, y| (10 + y / 2 * 4 + x / 2) as u8), (12, twos));
    let ones: Vec<u8> = (10..74).collect();
    assert_eq!(block(|x, y| (10 + y * 8 + x) as u8), (11, ones));
    // A block that both have: 0 before 1.
    let (map, packet) = encoded(1, 1, &[4; 64], &[4; 64], &[4; 64]);
    assert_eq!((map, packet), (vec![0], vec![]));
}

/// "The 14 front bytes and a spare nibble are zero."
#[test]
fn spare_nibble() {
    let (map, packet) = encoded(3, 1, &[3; 192], &[1; 192], &[2; 192]);
    assert_eq!((map, packet), (vec![0xEE, 0x0E], vec![3, 3, 3]));
}

fn refused(error: Error) -> Result<(), Refusal> {
    Err(Refusal { error, block: 0 })
}

/// "Refusals: 6 for the size, 8 for a short picture, 23 if the packet with its front exceeds 65,531 bytes,
/// 19 if the lent room is too small, in that order."
#[test]
fn refusals() {
    // Each block has 64 colours: 1,023 of them are 65,472 bytes. Then 45 more, and 46.
    let noise = |i: usize| (i % 640 % 8 + i / 640 % 8 * 8) as u8;
    let mut wanted = vec![3; PICTURE_BYTES];
    let blocks =
        |count: usize| (0..PICTURE_BYTES).filter(move |i| i / 5120 * 80 + i % 640 / 8 < count);
    for i in blocks(1023) {
        wanted[i] = noise(i);
    }
    let (mut front, back) = (vec![3; PICTURE_BYTES], vec![9; PICTURE_BYTES]);
    let mut solids = |count: usize| {
        for i in blocks(1023 + count) {
            front[i] = if noise(i) == 0 { 1 } else { 0xFE }; // no block of one colour
        }
        front.clone()
    };
    let (most, over) = (solids(45), solids(46));
    let of = |sizes: (usize, usize), pictures: [&[u8]; 3], rooms: (usize, usize)| {
        let (mut map, mut body) = (vec![0x5A; rooms.0], vec![0x5A; rooms.1]);
        let told =
            encode(sizes.0, sizes.1, pictures[0], pictures[1], pictures[2], &mut map, &mut body);
        let is_untouched = map.iter().chain(&body).all(|&byte| byte == 0x5A);
        assert!(is_untouched || told.is_ok(), "{told:?}");
        told.map(|told| assert_eq!((told.map_length, told.body_length), (2_400, 65_531)))
    };
    assert_eq!(of((80, 60), [&wanted, &most, &back], (2_400, 65_531)), Ok(()));
    for rooms in [(2_399, 65_531), (2_400, 65_530), (0, 0), (usize::from(u16::MAX), 13)] {
        assert_eq!(of((80, 60), [&wanted, &most, &back], rooms), refused(Error::Room));
    }
    // 23 before 19, 8 before 23, 6 before 8.
    for rooms in [(2_400, 65_532), (0, 0)] {
        let told = of((80, 60), [&wanted, &over, &back], rooms);
        assert_eq!(told, refused(Error::PacketLength));
    }
    let short = &wanted[..PICTURE_BYTES - 1];
    for pictures in [[short, &over, &back], [&wanted, short, &back], [&wanted, &over, short]] {
        assert_eq!(of((80, 60), pictures, (0, 0)), refused(Error::LentLength));
    }
    for size in [(0, 60), (81, 60), (80, 0), (80, 61), (usize::MAX, usize::MAX)] {
        assert_eq!(of(size, [&[], &[], &[]], (0, 0)), refused(Error::FrameSize));
    }
}
