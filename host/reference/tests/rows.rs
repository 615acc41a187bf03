//! The rows of blocks that a packet touches (02, W2): checking, drawing, the book and the film step
//! tell the first and the last one that holds a block other than code 1. Expected values are worked out
//! by hand from the documents.

mod common;

use common::{chunk, film, opcode, send, size, video, Lent};
use reference::book::{Book, Call};
use reference::film::{open, Stepped};
use reference::sound::NO_STREAM;
use reference::{check_as, draw_as, CallForm, Refusal, Rows};

const fn rows(first: usize, last: usize) -> Option<Rows> {
    Some(Rows { first, last })
}

/// Three columns and four rows: blocks 0 to 2, 3 to 5, 6 to 8, 9 to 11. The map has the low nibble
/// first, so that its bytes are blocks 1 0, 3 2, 5 4, 7 6, 9 8 and 11 10.
#[test]
fn first_and_last() {
    for (map, data, expected) in [
        // Code 1 everywhere: none.
        ([0x11, 0x11, 0x11, 0x11, 0x11, 0x11], &[][..], None),
        // A solid block: the first, the last of its row, the first of the next one, the last.
        ([0x1E, 0x11, 0x11, 0x11, 0x11, 0x11], &[7], rows(0, 0)),
        ([0x11, 0x1E, 0x11, 0x11, 0x11, 0x11], &[7], rows(0, 0)),
        ([0x11, 0xE1, 0x11, 0x11, 0x11, 0x11], &[7], rows(1, 1)),
        ([0x11, 0x11, 0x11, 0x11, 0x11, 0xE1], &[7], rows(3, 3)),
        // A block of code 0 counts, too.
        ([0x11, 0x11, 0x11, 0x01, 0x11, 0x11], &[], rows(2, 2)),
        ([0x11, 0x11, 0x11, 0x01, 0x10, 0x11], &[], rows(2, 2)),
        ([0x11, 0x11, 0x11, 0x01, 0x11, 0x10], &[], rows(2, 3)),
        // Rows between that are not touched lie inside.
        ([0x1E, 0x11, 0x11, 0x11, 0x11, 0xE1], &[7, 8], rows(0, 3)),
        ([0x11, 0xE1, 0x11, 0x11, 0x1E, 0x11], &[7, 8], rows(1, 2)),
        ([0x00, 0x00, 0x00, 0x00, 0x00, 0x00], &[], rows(0, 3)),
    ] {
        for form in CallForm::ALL {
            assert_eq!(check_as(form, 3, 4, &map, data), Ok(expected), "{map:x?}");
        }
    }
}

/// Every code counts but 1, in the second row of one column.
#[test]
fn every_code() {
    let solid = [0; 64];
    let data = [(0x0, 0), (0x4, 1), (0x5, 2), (0x7, 10), (0x8, 16), (0x9, 20), (0xA, 32)];
    let raw = [(0xB, 64), (0xC, 16), (0xD, 4), (0xE, 1), (0xF, 2)];
    for (code, length) in data.into_iter().chain(raw) {
        // 88 is no way at all in code 4; the pairs are 0 and 0, so they rise, as the lengths ask.
        let bytes = if code == 0x4 { vec![0x88] } else { solid[..length].to_vec() };
        let answer = check_as(CallForm::Default, 1, 3, &[0x01 | code << 4, 0x01], &bytes);
        assert_eq!(answer, Ok(rows(1, 1)), "code {code:X}");
    }
    // Codes 2 and 3 copy the block below, and the one above: by 0, 8 and 0, -8.
    let answer =
        |code: u8, byte| check_as(CallForm::Default, 1, 3, &[0x01 | code << 4, 0x01], &[byte]);
    let below = (0..=255).filter(|&byte| answer(0x2, byte) == Ok(rows(1, 1))).count();
    let above = (0..=255).filter(|&byte| answer(0x3, byte) == Ok(rows(1, 1))).count();
    assert_eq!((below, above), (1, 1));
}

/// The spare nibble of the map is no block.
#[test]
fn spare_nibble() {
    for spare in 0..16 {
        let answer = check_as(CallForm::Default, 1, 3, &[0x11, spare << 4 | 0x1], &[]);
        assert_eq!(answer, Ok(None), "{spare:X}");
    }
}

/// Drawing tells those of the whole packet: at every place and for every number of stores, whole or
/// unfinished. Two columns and three rows; the middle row has a solid block, the last one code 0.
#[test]
fn drawing() {
    let (map, front) = ([0x11, 0xE1, 0x01], [1; 384]);
    for form in CallForm::ALL {
        for place in 0..=6 {
            for allowed in [0, 1, 2, 64, 65, 70, 312_000] {
                let (mut back, mut after) = ([2; 384], place);
                let drawn = draw_as(form, 2, 3, &map, &[7], &front, &mut back, &mut after, allowed);
                let drawn = drawn.expect("accepted");
                assert_eq!(drawn.rows, rows(1, 2), "place {place}, {allowed} allowed");
                assert_eq!(drawn.whole, after == 6);
                assert_eq!(back[..128], [2; 128], "row 0 is not touched");
            }
        }
    }
}

/// The book's answers have them, too; refused calls have none, since they have no answer but the
/// refusal.
#[test]
fn book() {
    let front = [1; 384];
    let call = |form, data, allowed| Call {
        form,
        columns: 2,
        rows: 3,
        map: &[0x11, 0xE1, 0x01],
        data,
        front: &front,
        allowed,
    };
    let mut book = Book::open(&[2; 384]);
    for (allowed, whole) in
        [(3, false), (40, false), (65, false), (0, false), (70, true), (0, true)]
    {
        let drawn = book.enter(&call(CallForm::Default, &[7, 0], allowed)).expect("accepted");
        assert_eq!((drawn.rows, drawn.whole), (rows(1, 2), whole), "{allowed} allowed");
        let refused = book.enter(&call(CallForm::Strict, &[7, 0], allowed));
        assert_eq!(refused, Err(Refusal::new(15)));
    }
    assert_eq!(book.picture()[..128], [2; 128]);
}

/// The film step: of opcode 11 alone, unfinished and whole; the frame of code 1 alone has none.
#[test]
fn steps() {
    let opcodes = [
        size(1, 3),
        opcode(0x0F, 0, &[0xE1, 0x01]),
        video(&[7]),
        send(),
        opcode(0x0F, 0, &[0x11, 0x01]),
        video(&[]),
        send(),
    ];
    let film = film(&[chunk(&opcodes)]);
    let mut lent = Lent::zero(192);
    let mut state = open(&film, NO_STREAM).expect("a good header");
    let mut told = Vec::new();
    loop {
        state = match lent.step(&film, state, 66) {
            Stepped::Taken(after, 0 | 1, 0) => after,
            Stepped::Whole(after, stores, rows) => {
                told.push((true, stores, rows));
                after
            }
            Stepped::Unfinished(same, stores, rows) => {
                told.push((false, stores, rows));
                same
            }
            Stepped::Ended(_) => break,
            other => panic!("{other:?}"),
        };
    }
    assert_eq!(told, [(false, 66, rows(1, 1)), (true, 1, rows(1, 1)), (true, 3, None)]);
    assert_eq!(lent.b, [[0; 64], [7; 64], [0; 64]].concat());
}
