//! The sentences of document 02's W2, in its order, run on the proved library. The expected values are
//! worked out by hand from the documents.

use mve::{
    begin, check, check_strict, draw, draw_strict, step, Drawn, Error, Form, Pictures, Refusal,
    Rows, Step, NO_STREAM,
};

const fn rows(first: usize, last: usize) -> Option<Rows> {
    Some(Rows { first, last })
}

/// Packets of three columns and four rows, and the rows that they touch. The map has the low nibble
/// first: its bytes are blocks 1 0, 3 2, 5 4, 7 6, 9 8 and 11 10.
const PACKETS: [([u8; 6], &[u8], Option<Rows>); 9] = [
    ([0x11, 0x11, 0x11, 0x11, 0x11, 0x11], &[], None),
    ([0x1E, 0x11, 0x11, 0x11, 0x11, 0x11], &[7], rows(0, 0)),
    ([0x11, 0x1E, 0x11, 0x11, 0x11, 0x11], &[7], rows(0, 0)),
    ([0x11, 0xE1, 0x11, 0x11, 0x11, 0x11], &[7], rows(1, 1)),
    ([0x11, 0x11, 0x11, 0x11, 0x11, 0xE1], &[7], rows(3, 3)),
    ([0x11, 0x11, 0x11, 0x01, 0x11, 0x11], &[], rows(2, 2)),
    ([0x11, 0xE1, 0x11, 0x11, 0x11, 0x01], &[7], rows(1, 3)),
    ([0x11, 0x11, 0x1E, 0x11, 0x1E, 0x11], &[7, 8], rows(1, 2)),
    ([0x00, 0x00, 0x00, 0x00, 0x00, 0x00], &[], rows(0, 3)),
];

/// "The packet check shall also give the first and last block row, counted from 0, holding a block other
/// than code 1, and say when there is none"; a byte that pads the packet does not count.
#[test]
fn checking() {
    for (map, data, expected) in PACKETS {
        assert_eq!(check(3, 4, &map, data), Ok(expected), "{map:x?}");
        assert_eq!(check_strict(3, 4, &map, data), Ok(expected), "{map:x?}");
        assert_eq!(check(3, 4, &map, &[data, &[0xEE]].concat()), Ok(expected), "{map:x?}");
    }
}

/// The largest frame: one block touched in each row in turn, at its left or its right end; and none.
#[test]
fn every_row() {
    for row in 0..60 {
        for number in [80 * row, 80 * row + 79] {
            let mut map = [0x11; 2400];
            map[number / 2] = if number % 2 == 0 { 0x10 } else { 0x01 };
            assert_eq!(check(80, 60, &map, &[]), Ok(rows(row, row)), "block {number}");
            assert_eq!(check_strict(80, 60, &map, &[]), Ok(rows(row, row)), "block {number}");
        }
    }
    assert_eq!(check(80, 60, &[0x11; 2400], &[]), Ok(None));
}

/// The spare nibble of the map is no block.
#[test]
fn spare_nibble() {
    for spare in 0..16 {
        assert_eq!(check(1, 3, &[0x11, spare << 4 | 0x1], &[]), Ok(None), "{spare:X}");
    }
}

type DrawCall =
    fn(usize, usize, &[u8], &[u8], &[u8], &mut [u8], &mut usize, usize) -> Result<Drawn, Refusal>;

/// "Drawing ... pass it on, and rows outside it are proved unchanged": of every packet, from every place
/// and with stores that end in every block, both forms tell the same rows, whole or unfinished, and
/// leave all other rows and what lies beyond the frame.
#[test]
fn drawing() {
    let found: Vec<u8> = (0..800).map(|at| (at % 251) as u8).collect();
    let front = vec![255; 800];
    for call in [draw as DrawCall, draw_strict] {
        for (map, data, expected) in PACKETS {
            for place in 0..=12 {
                for allowed in [0, 1, 64, 65, 66, 130, 312_000] {
                    let (mut back, mut after) = (found.clone(), place);
                    let drawn = call(3, 4, &map, data, &front, &mut back, &mut after, allowed);
                    let drawn = drawn.expect("accepted");
                    assert_eq!(drawn.rows(), expected, "{map:x?} from {place}, {allowed} allowed");
                    assert_eq!(matches!(drawn, Drawn::Whole { .. }), after == 12);
                    let inside = expected.map_or(0..0, |rows| rows.bytes(3));
                    assert_eq!(back[..inside.start], found[..inside.start], "{map:x?}");
                    assert_eq!(back[inside.end..], found[inside.end..], "{map:x?}");
                }
            }
        }
    }
}

/// "A code 0 block counts as touched", also where front and back are the same, and it changes nothing.
#[test]
fn code_0() {
    let (front, mut back, mut place) = ([5; 192], [5; 192], 0);
    let drawn = draw(1, 3, &[0x01, 0x01], &[], &front, &mut back, &mut place, 312_000);
    assert_eq!(drawn, Ok(Drawn::Whole { stores: 67, rows: rows(1, 1) }));
    assert_eq!(back, front);
}

/// A film of one column and three rows. Its first chunk has the size, its second one the frames: the
/// first touches the middle row, the second none, the third the last two rows.
fn film() -> Vec<u8> {
    let word = |number: usize| (number as u16).to_le_bytes();
    let opcode = |kind, body: &[u8]| [&word(body.len())[..], &[kind, 0], body].concat();
    let frame = |map: &[u8], data: &[u8]| {
        [opcode(0x0F, map), opcode(0x11, &[&[0; 14], data].concat()), opcode(0x07, &[0; 4])]
            .concat()
    };
    let size = opcode(0x05, &[word(1), word(3)].concat());
    let frames =
        [frame(&[0xE1, 0x01], &[7]), frame(&[0x11, 0x01], &[]), frame(&[0x01, 0x0E], &[9])];
    let chunk = |kind, body: &[u8]| [&word(body.len())[..], &word(kind), body].concat();
    let header = b"Interplay MVE File\x1A\0\x1A\0\0\x01\x33\x11";
    [&header[..], &chunk(2, &size), &chunk(3, &frames.concat())].concat()
}

/// "The film step" passes it on: opcode 11 tells the rows of its packet, whole and unfinished; no other
/// step tells any.
#[test]
fn steps() {
    for form in [Form::Default, Form::Strict] {
        let film = film();
        let (mut palette, mut a, mut b, mut place) = ([0; 768], [1; 192], [2; 192], 0);
        let mut state = begin(&film, NO_STREAM, &mut palette, &mut place).expect("a size");
        let mut told = Vec::new();
        loop {
            let found = (a, b);
            let pictures = &mut Pictures::bytes(&mut a, &mut b);
            let step = step(&film, state, &mut palette, pictures, &mut place, &mut [], 66, form);
            let step = step.expect("a good film");
            match step {
                Step::Whole { stores, rows, .. } => told.push((true, stores, rows)),
                Step::Unfinished { stores, rows, .. } => told.push((false, stores, rows)),
                Step::Taken { .. } | Step::Ended { .. } => assert_eq!(step.rows(), None),
            }
            let inside = step.rows().map_or(0..0, |rows| rows.bytes(1));
            let (drawn, kept) = if state.front == 0 { (b, a) } else { (a, b) };
            let (before, front) = if state.front == 0 { (found.1, found.0) } else { found };
            assert_eq!(kept, front);
            assert_eq!(drawn[..inside.start], before[..inside.start]);
            assert_eq!(drawn[inside.end..], before[inside.end..]);
            if let Step::Ended { .. } = step {
                break;
            }
            state = step.state();
        }
        let first = [(false, 66, rows(1, 1)), (true, 1, rows(1, 1))];
        let third = [(false, 66, rows(1, 2)), (true, 65, rows(1, 2))];
        assert_eq!(told, [&first[..], &[(true, 3, None)], &third].concat());
    }
}

/// "Refusals: as before": the rows change nothing about them, and a refused call tells none.
#[test]
fn refusals() {
    let refused = |number, block| {
        let error = Error::from_number(number).expect("a number of refusal");
        Err(Refusal { error, block })
    };
    assert_eq!(check(1, 61, &[0x11; 31], &[]), refused(6, 0));
    assert_eq!(check(3, 4, &[0x11; 5], &[]), refused(10, 0));
    assert_eq!(check(1, 3, &[0x6E, 0x01], &[7]), refused(12, 1));
    assert_eq!(check(1, 3, &[0xEE, 0x01], &[7]), refused(13, 1));
    assert_eq!(check(1, 3, &[0x5E, 0x01], &[7, 1, 0]), refused(14, 1));
    assert_eq!(check(1, 3, &[0x1E, 0x01], &[7, 0, 0]), refused(15, 0));
    assert_eq!(check_strict(1, 3, &[0x1E, 0x01], &[7, 0]), refused(15, 0));
}
