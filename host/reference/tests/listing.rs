//! The listing: its limits, and how it ends (01, "Checked by hand"). The worked case is in
//! `document_01.rs`.

mod common;

use common::{chunk, film, opcode, size, video};
use reference::listing::list;

/// A film of this many bytes: one opcode that is passed over.
fn film_of(length: usize) -> Vec<u8> {
    let film = film(&[chunk(&[opcode(0x04, 0, &vec![0; length - 34])])]);
    assert_eq!(film.len(), length);
    film
}

#[test]
fn longest_film() {
    let expected = "at type version length\n30 4 0 24542\nended 24576\n";
    assert_eq!(list(&film_of(24_576)), expected);
    assert_eq!(list(&film_of(24_577)), "too large\n");
    assert_eq!(list(&vec![0xFF; 24_577]), "too large\n");
}

/// 16x16 blocks are 16,384 pixels, 80x4 are 20,480.
#[test]
fn largest_frame() {
    let listed = list(&film(&[chunk(&[size(16, 16)])]));
    assert_eq!(listed, "at type version length\n30 5 0 4\nended 38\n");
    let listed = list(&film(&[chunk(&[size(80, 4), opcode(0x01, 0, &[])])]));
    assert_eq!(listed, "at type version length\n30 5 0 4\ntoo large\n");
}

/// A 05 that is not taken writes no line.
#[test]
fn refused_size() {
    let listed = list(&film(&[chunk(&[size(81, 60)])]));
    assert_eq!(listed, "at type version length\nrefused 6 30\n");
}

#[test]
fn refused_opening() {
    let expected = "at type version length\nrefused 1 0\n";
    assert_eq!(list(&[]), expected);
    assert_eq!(list(&common::header()[..25]), expected);
}

/// A refusal names the position of the head that is refused; chunk heads print no line.
#[test]
fn refused_steps() {
    let cut_chunk = [film(&[chunk(&[])]), vec![1, 0, 0]].concat();
    assert_eq!(list(&cut_chunk), "at type version length\nrefused 2 30\n");

    let opcodes = [size(1, 1), opcode(0x13, 7, &[1, 2, 3]), opcode(0x0F, 0, &[0x06]), video(&[])];
    let expected = "at type version length\n\
                    30 5 0 4\n\
                    38 19 7 3\n\
                    45 15 0 1\n\
                    refused 12 50\n";
    assert_eq!(list(&film(&[chunk(&opcodes)])), expected);
}

/// 00 ends the film before the bytes behind its chunk; `ended` prints the film's length.
#[test]
fn end_of_stream() {
    let film = film(&[chunk(&[opcode(0x00, 0, &[])]), vec![0xFF; 5]]);
    assert_eq!(list(&film), "at type version length\n30 0 0 0\nended 39\n");
}
