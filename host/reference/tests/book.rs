//! The book of demand 3 on lists worked out by hand. (That it agrees with drawing on made lists of
//! calls is tested beside their maker.)

use reference::book::{Book, Call};
use reference::{CallForm, Drawn, Refusal, Rows};

const FRONT: [u8; 128] = [1; 128];

/// The marked case of 01: 16x8 pixels, map E2, data 00 07.
fn call(allowed: usize) -> Call<'static> {
    let (form, map, data) = (CallForm::Default, &[0xE2], &[0x00, 0x07]);
    Call { form, columns: 2, rows: 1, map, data, front: &FRONT, allowed }
}

fn drawn(whole: bool, stores: usize) -> Result<Drawn, Refusal> {
    Ok(Drawn { whole, stores, rows: Some(Rows { first: 0, last: 0 }) })
}

#[test]
fn one_call() {
    let mut book = Book::open(&[5; 128]);
    assert_eq!(book.enter(&call(312_000)), drawn(true, 130));
    assert_eq!(book.place(), 2);
    for row in book.picture().chunks(16) {
        assert_eq!(row, [[5; 8], [7; 8]].concat());
    }
}

/// After 75 stores, then after ten more calls that never finish a block, then to the end.
#[test]
fn several_calls() {
    let mut book = Book::open(&[5; 128]);
    assert_eq!(book.enter(&call(75)), drawn(false, 75));
    assert_eq!(book.place(), 1);
    assert_eq!(book.picture()[8..16], [7; 8]);
    assert_eq!(book.picture()[24..32], [7, 7, 5, 5, 5, 5, 5, 5]);
    for _ in 0..10 {
        assert_eq!(book.enter(&call(64)), drawn(false, 64));
        assert_eq!(book.place(), 1);
    }
    assert_eq!(book.enter(&call(65)), drawn(true, 65));
    assert_eq!(book.enter(&call(65)), drawn(true, 0));
    assert_eq!(book.enter(&call(0)), drawn(true, 0));
    assert_eq!(book.place(), 2);
    for row in book.picture().chunks(16) {
        assert_eq!(row, [[5; 8], [7; 8]].concat());
    }
}

/// The frame is worked out from the picture as the list finds it, not as earlier calls left it.
/// 3x1 blocks: block 0 is block 1 as found (5), block 1 is solid 7, block 2 is copied from 14 to the
/// left: six pixels a row of block 0 and two of block 1. Worked out anew after block 1 is drawn, block
/// 0 and so block 2 would be all 7.
#[test]
fn frame_is_worked_out_from_the_picture_found() {
    let front = [1; 192];
    let call = |allowed| Call {
        form: CallForm::Default,
        columns: 3,
        rows: 1,
        map: &[0xE2, 0x03],
        data: &[0, 7, 6],
        front: &front,
        allowed,
    };
    let mut book = Book::open(&[5; 192]);
    assert_eq!(book.enter(&call(130)), drawn(false, 130));
    assert_eq!(book.enter(&call(40)), drawn(false, 40));
    assert_eq!(book.enter(&call(65)), drawn(true, 65));
    for row in book.picture().chunks(24) {
        assert_eq!(row[..16], [[5; 8], [7; 8]].concat());
        assert_eq!(row[16..], [5, 5, 5, 5, 5, 5, 7, 7]);
    }
}

/// A refused call makes no store, whatever it brings; its number is the table's, and whether it
/// meets 11 is decided by the place that the list has reached.
#[test]
fn refused_calls() {
    let refused = |number, block| Err(Refusal { number, block });
    let mut book = Book::open(&[5; 128]);
    let small = Call { columns: 1, map: &[0x01], data: &[], ..call(65) };
    assert_eq!(book.enter(&call(130)), drawn(true, 130));
    let before = book.picture().to_vec();
    let calls = [
        (Call { columns: 81, ..call(65) }, refused(6, 0)),
        (Call { rows: 61, ..call(65) }, refused(6, 0)),
        (Call { front: &FRONT[..127], ..call(65) }, refused(8, 0)),
        (Call { rows: 2, ..call(65) }, refused(8, 0)),
        (Call { map: &[], ..call(65) }, refused(10, 0)),
        (small, refused(11, 0)),
        (Call { map: &[0x6E], ..call(65) }, refused(12, 1)),
        (Call { data: &[0x00], ..call(65) }, refused(13, 1)),
        (Call { data: &[0x01, 0x07], ..call(65) }, refused(14, 0)),
        (Call { data: &[0, 7, 7, 7], ..call(65) }, refused(15, 0)),
        (Call { form: CallForm::Strict, data: &[0, 7, 7], ..call(65) }, refused(15, 0)),
    ];
    for (call, answer) in calls {
        assert_eq!(book.enter(&call), answer);
        assert_eq!((book.picture(), book.place()), (&before[..], 2));
    }
    // At place 0 the small packet is not refused.
    let nothing = Drawn { whole: true, stores: 1, rows: None };
    assert_eq!(Book::open(&[5; 128]).enter(&small), Ok(nothing));
}

/// A packet with a byte left over (02, W6): the marked case again, in the default form. Strict calls
/// between are refused and make no store; with nothing left over both forms come to the same.
#[test]
fn odd_byte() {
    let refused = Err(Refusal { number: 15, block: 0 });
    let padded = |form, allowed| Call { form, data: &[0x00, 0x07, 0xFF], ..call(allowed) };
    let mut book = Book::open(&[5; 128]);
    assert_eq!(book.enter(&padded(CallForm::Strict, 130)), refused);
    assert_eq!((book.picture(), book.place()), (&[5; 128][..], 0));
    assert_eq!(book.enter(&padded(CallForm::Default, 75)), drawn(false, 75));
    assert_eq!(book.enter(&padded(CallForm::Strict, 130)), refused);
    assert_eq!(book.enter(&padded(CallForm::Default, 75)), drawn(true, 65));
    let mut strict = Book::open(&[5; 128]);
    let call = Call { form: CallForm::Strict, ..call(312_000) };
    assert_eq!(strict.enter(&call), drawn(true, 130));
    for book in [book, strict] {
        assert_eq!(book.place(), 2);
        for row in book.picture().chunks(16) {
            assert_eq!(row, [[5; 8], [7; 8]].concat());
        }
    }
}
