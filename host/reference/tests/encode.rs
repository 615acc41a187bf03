//! Frames of one's own: 02's rules for W10, on blocks worked out by hand.

use reference::encode::{choices, encode, least, Choice, Encoded, Square, CODES, MOST};
use reference::{draw_as, CallForm, Refusal};

fn square(pixel: impl Fn(usize, usize) -> u8) -> Square {
    std::array::from_fn(|i| pixel(i % 8, i / 8))
}

fn choice(code: u8, data: &[u8]) -> Choice {
    Choice { code, data: data.to_vec() }
}

const FRONT: Square = [1; 64];
const BACK: Square = [2; 64];

fn least_of(pixel: impl Fn(usize, usize) -> u8) -> Choice {
    least(&square(pixel), &FRONT, &BACK)
}

/// "No choice among codes 0, 1, 7, B, C, D, E and F reproduces it in fewer data bytes; ties go to the lower
/// code."
#[test]
fn least_choices() {
    assert_eq!(least(&[1; 64], &FRONT, &[1; 64]), choice(0x0, &[]));
    assert_eq!(least_of(|_, _| 1), choice(0x0, &[]));
    assert_eq!(least_of(|_, _| 2), choice(0x1, &[]));
    assert_eq!(least_of(|_, _| 3), choice(0xE, &[3]));
    assert_eq!(least_of(|x, y| [9, 3][(x + y) % 2]), choice(0xF, &[9, 3]));
    assert_eq!(least_of(|x, _| [9, 3][x / 4]), choice(0x7, &[9, 3, 0xCC, 0xCC]));
    assert_eq!(least_of(|x, y| [9, 3, 4, 9][y / 4 * 2 + x / 4]), choice(0xD, &[9, 3, 4, 9]));
    let stripes = choice(0x7, &[3, 9, 0x55, 0x55, 0x55, 0x55, 0x55, 0x55, 0x55, 0x55]);
    assert_eq!(least_of(|x, _| [9, 3][x % 2]), stripes);
    let twos: Vec<u8> = (10..26).collect();
    assert_eq!(least_of(|x, y| (10 + y / 2 * 4 + x / 2) as u8), choice(0xC, &twos));
    let ones: Vec<u8> = (10..74).collect();
    assert_eq!(least_of(|x, y| (10 + y * 8 + x) as u8), choice(0xB, &ones));
}

/// A block of one colour that both pictures have: every code gives it, 7 with a bit a pixel.
#[test]
fn every_choice() {
    let all = choices(&FRONT, &FRONT, &FRONT);
    assert_eq!(all.iter().map(|choice| choice.code).collect::<Vec<_>>(), CODES);
    let lengths: Vec<usize> = all.iter().map(|choice| choice.data.len()).collect();
    assert_eq!(lengths, [0, 0, 10, 64, 16, 4, 1, 2]);
    for choice in &all {
        assert_eq!(choice.decoded(&FRONT, &FRONT), FRONT);
    }
    // Two colours in quarters: 7 in both forms, D, C and B.
    let quarters = square(|x, y| [9, 3, 3, 9][y / 4 * 2 + x / 4]);
    let all = choices(&quarters, &FRONT, &BACK);
    let sizes: Vec<(u8, usize)> = all.iter().map(|c| (c.code, c.data.len())).collect();
    assert_eq!(sizes, [(0x7, 10), (0x7, 4), (0xB, 64), (0xC, 16), (0xD, 4)]);
}

#[test]
fn pictures() {
    let (wanted, front, back) = ([3; 3 * 64], [1; 3 * 64], [3; 3 * 64]);
    let body = [vec![0; 14], vec![3; 3]].concat();
    let solid = encode(3, 1, &wanted, &front, &[2; 3 * 64], 2, 17);
    assert_eq!(solid, Ok(Encoded { map: vec![0xEE, 0x0E], body }));
    let kept = encode(1, 3, &wanted, &front, &back, 2, 14);
    assert_eq!(kept, Ok(Encoded { map: vec![0x11, 0x01], body: vec![0; 14] }));
    let (form, mut drawn) = (CallForm::Strict, back);
    let told = draw_as(form, 1, 3, &[0x11, 0x01], &[], &front, &mut drawn, &mut 0, 3);
    assert!(told.is_ok() && drawn == wanted);
}

fn refused<T>(number: u8) -> Result<T, Refusal> {
    Err(Refusal { number, block: 0 })
}

/// "Refusals: 6 for the size, 8 for a short picture, 23 if the packet with its front exceeds 65,531 bytes,
/// 19 if the lent room is too small, in that order."
#[test]
fn refusals() {
    // So many blocks of 64 colours, then so many of one; front has all others.
    let of = |raw: usize, solid: usize| -> Vec<u8> {
        let pixel = |i: usize| {
            let (block, inside) = (i / 2048 * 32 + i % 256 / 8, i / 256 % 8 * 8 + i % 8);
            match block {
                _ if block < raw => inside as u8,
                _ if block < raw + solid => 200,
                _ => 1,
            }
        };
        (0..64 * 1024).map(pixel).collect()
    };
    let (front, back) = (vec![1; 64 * 1024], vec![2; 64 * 1024]);
    let tried = |wanted: &[u8], rooms: (usize, usize)| {
        encode(32, 32, wanted, &front, &back, rooms.0, rooms.1).map(|made| made.body.len())
    };
    // 14 + 64 * 1,023 = 65,486, and one more.
    assert_eq!(tried(&of(1023, 0), (512, 65_486)), Ok(65_486));
    assert_eq!(tried(&of(1023, 1), (512, 65_487)), Ok(65_487));
    // 14 + 64 * 1,024 = 65,550.
    assert_eq!(tried(&of(1024, 0), (512, MOST)), refused(23));
    assert_eq!(tried(&of(1024, 0), (0, 0)), refused(23));
    assert_eq!(tried(&of(1023, 1), (511, 65_487)), refused(19));
    assert_eq!(tried(&of(1023, 1), (512, 65_486)), refused(19));
    let raw = of(1024, 0);
    assert_eq!(tried(&raw[1..], (0, 0)), refused(8));
    assert_eq!(encode(32, 32, &raw, &front[1..], &back, 0, 0), refused(8));
    assert_eq!(encode(32, 32, &raw, &front, &back[1..], 0, 0), refused(8));
    for (columns, rows) in [(0, 1), (1, 0), (81, 1), (1, 61), (usize::MAX, 1)] {
        assert_eq!(encode(columns, rows, &[], &[], &[], 0, 0), refused(6));
    }
}
