//! What may be left over behind a packet's last block (02, W6): one byte in the default form, none in
//! the strict one. Expected values are worked out by hand from the documents. The book is in `book.rs`,
//! every kind of last block in `blocks.rs`.

mod common;

use common::{chunk, film, opcode, size, video, Lent};
use reference::film::{open, State, Stepped};
use reference::listing::list;
use reference::packet::{blocks, left_over};
use reference::sound::NO_STREAM;
use reference::{check_as, draw_as, CallForm, Refusal, Rows};

/// The only row of a frame of one block.
const ROW: Option<Rows> = Some(Rows { first: 0, last: 0 });

fn refused<T>(number: u8, block: usize) -> Result<T, Refusal> {
    Err(Refusal { number, block })
}

/// "15 in the default means two or more bytes left", in the strict form one or more.
#[test]
fn checking() {
    for over in 0..6 {
        let data = vec![7; 1 + over];
        let accepted_if = |taken| if taken { Ok(()) } else { refused(15, 0) };
        let check = |form| check_as(form, 1, 1, &[0x0E], &data).map(|_| ());
        assert_eq!(check(CallForm::Default), accepted_if(over <= 1), "{over} bytes over");
        assert_eq!(check(CallForm::Strict), accepted_if(over == 0), "{over} bytes over");
        assert_eq!(left_over(1, 1, &[0x0E], &data), Ok(over));
    }
}

/// 15 comes last, in both forms: each packet has this fault, and a byte or two left over but for 13.
#[test]
fn order() {
    for form in CallForm::ALL {
        for over in [&[9][..], &[9, 9]] {
            let check = |columns, map: &[u8], data: &[u8]| {
                check_as(form, columns, 1, map, &[data, over].concat())
            };
            assert_eq!(check(81, &[0x11; 41], &[]), refused(6, 0));
            assert_eq!(check(2, &[0x11; 2], &[]), refused(10, 0));
            assert_eq!(check(2, &[0x6E], &[7]), refused(12, 1));
            assert_eq!(check(2, &[0xBE], &[7]), refused(13, 1));
            assert_eq!(check(2, &[0x5E], &[7, 1, 0]), refused(14, 1));
        }
        let draw = |columns, pixels: usize, mut place| {
            let (front, mut back) = (vec![1; pixels], vec![2; pixels]);
            draw_as(form, columns, 1, &[0x0E], &[7, 9, 9], &front, &mut back, &mut place, 65)
        };
        assert_eq!(draw(81, 64, 2), refused(6, 0));
        assert_eq!(draw(1, 63, 2), refused(8, 0));
        assert_eq!(draw(1, 64, 2), refused(11, 0));
        assert_eq!(draw(1, 64, 1), refused(15, 0));
    }
}

/// The byte left over is no block's: the blocks are those of the packet without it, and so is the
/// picture, whatever the byte is.
#[test]
fn the_byte_is_not_read() {
    let (map, data) = ([0xE2], [0x00, 0x07]);
    for odd in 0..=255 {
        let padded = [0x00, 0x07, odd];
        assert_eq!(blocks(2, 1, &map, &padded), blocks(2, 1, &map, &data));
        let (front, mut back, mut place) = ([1; 128], [5; 128], 0);
        let form = CallForm::Default;
        let drawn = draw_as(form, 2, 1, &map, &padded, &front, &mut back, &mut place, 312_000);
        let drawn = drawn.map(|drawn| (drawn.whole, drawn.stores));
        assert_eq!((drawn, place), (Ok((true, 130)), 2));
        for row in back.chunks(16) {
            assert_eq!(row, [[5; 8], [7; 8]].concat());
        }
    }
}

/// The strict form refuses it and changes nothing, at every place; without it, it draws.
#[test]
fn strict_drawing() {
    let (form, map, front) = (CallForm::Strict, [0xE2], [1; 128]);
    for found in 0..=2 {
        let (mut back, mut place) = ([5; 128], found);
        let padded = [0x00, 0x07, 0x00];
        let drawn = draw_as(form, 2, 1, &map, &padded, &front, &mut back, &mut place, 65);
        assert_eq!((drawn, back, place), (refused(15, 0), [5; 128], found));
        let drawn = draw_as(form, 2, 1, &map, &padded[..2], &front, &mut back, &mut place, 65);
        let stores = if found == 2 { 0 } else { 65 };
        assert_eq!(drawn.map(|drawn| (drawn.whole, drawn.stores)), Ok((found > 0, stores)));
    }
}

/// The state in front of the opcode 11 of [`film_of`].
fn at_video(film: &[u8]) -> State {
    let opened = open(film, NO_STREAM).expect("a good header");
    Lent::zero(64).steps(film, opened, 3)
}

/// A film of one frame of one solid block with this packet.
fn film_of(packet: &[u8]) -> Vec<u8> {
    film(&[chunk(&[size(1, 1), opcode(0x0F, 0, &[0x0E]), video(packet)])])
}

/// The film step: with one byte over the default form takes the opcode, the strict one refuses it and
/// leaves all as it was; with two both refuse it.
#[test]
fn steps() {
    for (packet, default, strict) in
        [(&[7][..], true, true), (&[7, 0], true, false), (&[7, 0, 0], false, false)]
    {
        let film = film_of(packet);
        let state = at_video(&film);
        for (form, taken) in [(CallForm::Default, default), (CallForm::Strict, strict)] {
            let mut lent = Lent::zero(64);
            let stepped = lent.step_as(form, &film, state, 312_000);
            if taken {
                let after = State { position: film.len(), map: None, unsent: true, ..state };
                assert_eq!(stepped, Stepped::Whole(after, 65, ROW));
                assert_eq!((lent.b, lent.place), (vec![7; 64], 1));
            } else {
                assert_eq!(stepped, Stepped::Refused(Refusal { number: 15, block: 0 }));
                assert_eq!(lent, Lent::zero(64));
            }
        }
    }
}

/// The listing program uses the default form.
#[test]
fn listings() {
    let listed = |packet: &[u8]| list(&film_of(packet));
    let opcodes = "at type version length\n30 5 0 4\n38 15 0 1\n";
    assert_eq!(listed(&[7, 0]), format!("{opcodes}43 17 0 16\nended 63\n"));
    assert_eq!(listed(&[7, 0, 0]), format!("{opcodes}refused 15 43\n"));
}
