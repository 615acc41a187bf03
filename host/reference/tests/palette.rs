//! Opcodes 0B, 0C, 0D: their rules and refusals 5, 7 and 8 (01, "Palette").

mod common;

use reference::palette::{create_gradient, set_palette, set_palette_compressed};
use reference::Refusal;

type Opcode = fn(&[u8], &mut [u8]) -> Result<(), Refusal>;

/// A palette of bytes above 63, which are never tested where they already stand.
const BEFORE: [u8; 768] = [0xAA; 768];

fn after(opcode: Opcode, body: &[u8]) -> [u8; 768] {
    let mut palette = BEFORE;
    opcode(body, &mut palette).unwrap_or_else(|refusal| panic!("{body:?}: {refusal}"));
    palette
}

fn assert_refused(opcode: Opcode, body: &[u8], number: u8) {
    let mut palette = BEFORE;
    let refusal = Refusal { number, block: 0 };
    assert_eq!(opcode(body, &mut palette), Err(refusal), "{body:?}");
    assert_eq!(palette, BEFORE);
}

/// The body of 0C.
fn run(start: usize, count: usize, colours: &[u8]) -> Vec<u8> {
    [&common::word(start)[..], &common::word(count), colours].concat()
}

/// The body of 0D with these groups of mask and colours first, empty groups behind them.
fn groups(first: &[&[u8]]) -> Vec<u8> {
    [first.concat(), vec![0; 32 - first.len()]].concat()
}

#[test]
fn palette_length() {
    let opcodes: [(Opcode, Vec<u8>); 3] = [
        (create_gradient, vec![0; 6]),
        (set_palette, vec![0; 4]),
        (set_palette_compressed, vec![0; 32]),
    ];
    for (opcode, body) in opcodes {
        for length in [0, 767, 769] {
            let mut palette = vec![1; length];
            let lent = Refusal { number: 8, block: 0 };
            assert_eq!(opcode(&body, &mut palette), Err(lent));
        }
        assert_eq!(after(opcode, &body), BEFORE);
    }
}

#[test]
fn set_palette_rules() {
    let palette = after(set_palette, &run(254, 2, &[1, 2, 63, 4, 0, 6]));
    assert_eq!(palette[..254 * 3], BEFORE[..254 * 3]);
    assert_eq!(palette[254 * 3..], [1, 2, 63, 4, 0, 6]);
    // Count 0 changes nothing; start 256 with count 0 is in range, 257 is not.
    assert_eq!(after(set_palette, &run(256, 0, &[])), BEFORE);
    assert_refused(set_palette, &run(257, 0, &[]), 7);
    assert_eq!(after(set_palette, &run(0, 256, &[5; 768])), [5; 768]);
    assert_refused(set_palette, &run(1, 256, &[5; 768]), 7);
    assert_refused(set_palette, &run(255, 2, &[5; 6]), 7);
    for place in 0..6 {
        let mut colours = [63; 6];
        colours[place] = 64;
        assert_refused(set_palette, &run(0, 2, &colours), 7);
    }
}

/// 5 comes before 7.
#[test]
fn set_palette_lengths() {
    for length in 0..4 {
        assert_refused(set_palette, &[0; 4][..length], 5);
    }
    assert_refused(set_palette, &run(0, 2, &[1; 5]), 5);
    assert_refused(set_palette, &run(0, 2, &[1; 7]), 5);
    assert_refused(set_palette, &run(0, 0, &[1]), 5);
    assert_refused(set_palette, &run(255, 2, &[64; 5]), 5);
    assert_refused(set_palette, &run(0xFFFF, 0xFFFF, &[64; 9]), 5);
}

#[test]
fn set_palette_compressed_rules() {
    // Bits 0 and 7 of group 0, bit 1 of group 1: entries 0, 7 and 9.
    let body = groups(&[&[0x81, 1, 2, 3, 4, 5, 6], &[0x02, 7, 8, 63]]);
    let palette = after(set_palette_compressed, &body);
    let mut expected = BEFORE;
    expected[..3].copy_from_slice(&[1, 2, 3]);
    expected[7 * 3..][..3].copy_from_slice(&[4, 5, 6]);
    expected[9 * 3..][..3].copy_from_slice(&[7, 8, 63]);
    assert_eq!(palette, expected);

    let all: Vec<u8> = (0..32).flat_map(|_| [&[0xFF][..], &[9; 24]].concat()).collect();
    assert_eq!(after(set_palette_compressed, &all), [9; 768]);
    assert_refused(set_palette_compressed, &groups(&[&[0x01, 0, 64, 0]]), 7);
}

/// Exactly used up, and 5 before 7.
#[test]
fn set_palette_compressed_lengths() {
    let good = groups(&[&[0x01, 64, 0, 0], &[0x80, 0, 0, 0]]);
    assert_refused(set_palette_compressed, &good, 7);
    for length in 0..good.len() {
        assert_refused(set_palette_compressed, &good[..length], 5);
    }
    assert_refused(set_palette_compressed, &[&good[..], &[0]].concat(), 5);
    // The last mask asks for a colour that is not there.
    let mut body = vec![0; 31];
    body.push(0x10);
    assert_refused(set_palette_compressed, &body, 5);
}

#[test]
fn gradient_rules() {
    // Red-green over red-blue: stored second, in entries 2 and 3.
    let palette = after(create_gradient, &[0, 2, 2, 2, 1, 2]);
    assert_eq!(palette[..12], [0, 0, 0, 0, 0, 39, 0, 0, 0, 0, 39, 0]);
    assert_eq!(palette[12..], BEFORE[12..]);
    // One row: red 0. One column: blue 0. Three steps: 63·1/2 is 31, 39·1/2 is 19.
    let palette = after(create_gradient, &[0, 1, 3, 10, 3, 1]);
    assert_eq!(palette[..9], [0, 0, 0, 0, 0, 19, 0, 0, 39]);
    assert_eq!(palette[30..39], [0, 0, 0, 31, 0, 0, 63, 0, 0]);
    let palette = after(create_gradient, &[7, 1, 1, 0, 0, 0]);
    assert_eq!(palette[21..24], [0, 0, 0]);
    assert_eq!(palette[24..], BEFORE[24..]);
}

/// A gradient with a zero count is absent and its base is not tested.
#[test]
fn absent_gradients() {
    for body in [[255, 0, 255, 255, 255, 0], [255, 255, 0, 255, 0, 255], [0, 0, 0, 0, 0, 0]] {
        assert_eq!(after(create_gradient, &body), BEFORE);
    }
}

#[test]
fn gradient_range() {
    // 16 by 16 entries from 0, or one from 255, end at 256.
    let palette = after(create_gradient, &[0, 16, 16, 255, 1, 1]);
    assert_eq!(palette[765..], [0, 0, 0]);
    // Entry 254 is row 15, column 14: 39·14/15 is 36.
    assert_eq!(palette[762..765], [63, 0, 36]);
    assert_refused(create_gradient, &[1, 16, 16, 0, 0, 0], 7);
    assert_refused(create_gradient, &[0, 0, 0, 255, 1, 2], 7);
    assert_refused(create_gradient, &[255, 255, 255, 0, 0, 0], 7);
    // The second one is out of range: the first one is not stored either.
    assert_refused(create_gradient, &[0, 2, 2, 250, 7, 1], 7);
}

#[test]
fn gradient_length() {
    assert_refused(create_gradient, &[255; 5], 5);
    assert_refused(create_gradient, &[255; 7], 5);
    assert_refused(create_gradient, &[], 5);
}
