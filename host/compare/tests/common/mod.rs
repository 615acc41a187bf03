//! What the tests share.

#![allow(dead_code)] // each test file uses a part of it

use compare::{Decoder, Event, FromDefault, Proved, Second, Tally};
use maker::{Form, Packet, WordForm};
use reference::CallForm::{self, Default, Strict};
use reference::Rows;
use std::fmt::Debug;

/// How often each thing must be reached at least.
const OFTEN: usize = 20;

/// What packets leave over, in each form: all of it is reached.
pub const LEFT_OVER: [Event; 8] = [
    Event::TakenOver(Default, 0),
    Event::TakenOver(Default, 1),
    Event::RefusedOver(Default, 2),
    Event::RefusedOver(Default, 3),
    Event::TakenOver(Strict, 0),
    Event::RefusedOver(Strict, 1),
    Event::RefusedOver(Strict, 2),
    Event::RefusedOver(Strict, 3),
];

/// What packets with true colour leave over, in each form: of the first part, and of the second.
pub const WORDS_OVER: [Event; 14] = [
    Event::TakenWords(Default, 0),
    Event::TakenWords(Default, 1),
    Event::RefusedWords(Default, 0, 2),
    Event::RefusedWords(Default, 0, 3),
    Event::RefusedWords(Default, 1, 0),
    Event::RefusedWords(Default, 1, 1),
    Event::RefusedWords(Default, 2, 0),
    Event::TakenWords(Strict, 0),
    Event::RefusedWords(Strict, 0, 1),
    Event::RefusedWords(Strict, 0, 2),
    Event::RefusedWords(Strict, 0, 3),
    Event::RefusedWords(Strict, 1, 0),
    Event::RefusedWords(Strict, 1, 1),
    Event::RefusedWords(Strict, 2, 0),
];

/// Wrong rows for an accepted packet and a call that finds this place, by a name.
pub type WrongRows = (&'static str, fn(&Packet, usize, Option<Rows>) -> Option<Rows>);

/// The rows that programs tell which read 02's W2 wrongly. The last one is so only where the place is
/// not 0.
pub const WRONG_ROWS: [WrongRows; 8] = [
    ("code 0 not counted", |packet, _, _| rows_with(packet, |_, code| code > 1)),
    ("code 1 counted", |packet, _, _| rows_with(packet, |_, _| true)),
    ("the last row one too small", |_, _, rows| {
        rows.map(|Rows { first, last }| Rows { first, last: last.saturating_sub(1) })
    }),
    ("the first row always 0", |_, _, rows| rows.map(|rows| Rows { first: 0, ..rows })),
    ("the last row always the frame's", |packet, _, rows| {
        rows.map(|rows| Rows { last: packet.rows - 1, ..rows })
    }),
    ("rows counted in pixels", |_, _, rows| {
        rows.map(|Rows { first, last }| Rows { first: 8 * first, last: 8 * last + 7 })
    }),
    ("none told as row 0", |_, _, rows| rows.or(Some(Rows { first: 0, last: 0 }))),
    ("rows of the blocks still due", |packet, place, _| {
        rows_with(packet, |number, code| number >= place && code != 1)
    }),
];

/// The rows that hold a block which counts, by its number and its code.
fn rows_with(packet: &Packet, counts: impl Fn(usize, u8) -> bool) -> Option<Rows> {
    let codes = packet.map.iter().flat_map(|byte| [byte & 0x0F, byte >> 4]);
    let blocks = codes.take(packet.columns * packet.rows).enumerate();
    let counted: Vec<usize> =
        blocks.filter(|&(number, code)| counts(number, code)).map(|(number, _)| number).collect();
    let row = |number: &usize| number / packet.columns;
    Some(Rows { first: counted.first().map(row)?, last: counted.last().map(row)? })
}

/// The comparison was made on something: each of these was reached, and a block of every form.
#[track_caller]
pub fn assert_reached(tally: &Tally, wanted: &[Event]) {
    assert_often(tally, &[wanted, &Form::ALL.map(Event::Form)].concat());
}

/// The same of packets or films with true colour.
#[track_caller]
pub fn assert_reached_words(tally: &Tally, wanted: &[Event]) {
    assert_often(tally, &[wanted, &WordForm::ALL.map(Event::WordForm)].concat());
}

#[track_caller]
fn assert_often(tally: &Tally, wanted: &[Event]) {
    println!("{tally}");
    for &event in wanted {
        let times = tally.times(event);
        println!("{event:?} reached {times} times");
        assert!(times >= OFTEN, "{event:?} reached {times} times, wanted {OFTEN}");
    }
}

/// What the proved library makes of a call in the default form and in the strict one. Each is the same
/// as the second decoder's, and the strict one is what follows from the default.
#[track_caller]
pub fn same<T: PartialEq>(case: impl Debug, call: impl Fn(&dyn Decoder, CallForm) -> T) -> [T; 2] {
    let default = call(&Proved, Default);
    assert!(default == call(&Second, Default), "{case:?}");
    let strict = call(&Proved, Strict);
    assert!(strict == call(&Second, Strict), "strict form: {case:?}");
    assert!(strict == call(&FromDefault(Proved), Strict), "forms: {case:?}");
    [default, strict]
}
