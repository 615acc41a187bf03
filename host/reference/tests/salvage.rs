//! What is left of a scratched film: 02's rules for W13, and the points that it leaves to reading.

mod common;

use common::{chunk, film, header, hex, opcode, send, size, video, word};
use reference::salvage::{salvage, LeftOut, Salvaged, Stop, END_CHUNK};
use reference::Refusal;

fn saved(film: &[u8]) -> Salvaged {
    let saved = salvage(film, usize::MAX, usize::MAX).expect("a good header");
    let sum = header().len() + saved.kept + saved.lost + saved.rest;
    assert_eq!(sum, film.len(), "each byte is counted once");
    saved
}

fn numbers(film: &[u8]) -> Vec<usize> {
    saved(film).numbers()
}

/// The list of a film of one chunk with these opcodes.
fn refused(opcodes: &[Vec<u8>]) -> Option<u8> {
    let saved = saved(&film(&[chunk(opcodes)]));
    match saved.left_out[..] {
        [] => None,
        [LeftOut { position: 26, number, .. }] => Some(number),
        _ => panic!("one chunk, left out once"),
    }
}

fn end() -> Vec<u8> {
    opcode(0x00, 0, &[])
}

#[test]
fn a_film_without_chunks_gets_its_end() {
    let saved = saved(&header());
    assert_eq!(saved.film, [header(), hex("04 00 05 00 00 00 00 00")].concat());
    assert_eq!((saved.stop, saved.kept, saved.lost, saved.rest), (Stop::FilmEnd, 0, 0, 0));
    assert!(saved.left_out.is_empty());
}

#[test]
fn number_1_comes_first() {
    let wrong = Err(Refusal { number: 1, block: 0 });
    for length in 0..26 {
        assert_eq!(salvage(&header()[..length], 0, 0), wrong);
    }
    let mut changed = header();
    changed[25] ^= 1;
    assert_eq!(salvage(&changed, usize::MAX, usize::MAX), wrong);
}

#[test]
fn number_19_by_either_room() {
    let bad = chunk(&[opcode(0x06, 0, &[])]);
    let film = film(&[bad.clone(), chunk(&[send()]), bad]);
    let (bytes, list) = (26 + 4 + 8 + 8, 6);
    let no_room = Err(Refusal { number: 19, block: 0 });
    assert!(salvage(&film, bytes, list).is_ok());
    assert_eq!(salvage(&film, bytes - 1, list), no_room);
    assert_eq!(salvage(&film, bytes, list - 1), no_room);
    assert_eq!(salvage(&film, bytes, 2), no_room, "the list is of numbers, not of chunks");
}

#[test]
fn chunks_are_kept_or_left_out_whole() {
    let good = chunk(&[size(1, 1), opcode(0x01, 0, &[])]);
    let bad = chunk(&[send(), opcode(0x0E, 0, &[1, 2, 3]), send()]);
    let empty = chunk(&[]);
    let film = film(&[good.clone(), bad.clone(), empty.clone(), bad.clone(), good.clone()]);
    let saved = saved(&film);
    let kept = [good.clone(), empty.clone(), good.clone()].concat();
    assert_eq!(saved.film, [header(), kept.clone(), END_CHUNK.to_vec()].concat());
    let (first, second) = (26 + good.len(), 26 + good.len() + bad.len() + empty.len());
    let length = bad.len() - 4; // the length word
    assert_eq!(saved.numbers(), [first, length, 4, second, length, 4]);
    assert_eq!((saved.kept, saved.lost, saved.rest), (kept.len(), 2 * bad.len(), 0));
    assert_eq!(saved.stop, Stop::FilmEnd);
}

#[test]
fn the_first_refusal_of_a_chunk_is_listed() {
    let (type_6, long) = (opcode(0x06, 0, &[]), opcode(0x07, 0, &[0; 5]));
    assert_eq!(refused(&[type_6.clone(), long.clone()]), Some(4));
    assert_eq!(refused(&[long, type_6]), Some(5));
}

#[test]
fn walking_stops_behind_a_kept_00() {
    let (last, bad) = (chunk(&[send(), end()]), chunk(&[opcode(0x06, 0, &[])]));
    let film = film(&[last.clone(), bad]);
    let saved = saved(&film);
    assert_eq!(saved.film, [header(), last.clone()].concat());
    assert_eq!((saved.stop, saved.kept, saved.rest), (Stop::BehindEnd, last.len(), 8));
    assert!(saved.left_out.is_empty(), "what is behind it is not walked");
}

#[test]
fn a_00_that_is_left_out_does_not_stop_it() {
    let (bad, good) = (chunk(&[opcode(0x06, 0, &[]), end()]), chunk(&[send()]));
    let saved = saved(&film(&[bad.clone(), good.clone(), bad]));
    assert_eq!(saved.film, [header(), good, END_CHUNK.to_vec()].concat());
    assert_eq!((saved.stop, saved.left_out.len()), (Stop::FilmEnd, 2));
}

#[test]
fn number_2_stops_it_and_is_not_listed() {
    let good = chunk(&[send()]);
    for tail in ["01", "01 02 03", "01 00 00 00", "05 00 00 00 01 02 03 04"] {
        let film = [film(std::slice::from_ref(&good)), hex(tail)].concat();
        let saved = saved(&film);
        assert_eq!(saved.film, [header(), good.clone(), END_CHUNK.to_vec()].concat());
        assert_eq!((saved.stop, saved.rest), (Stop::PastEnd, hex(tail).len()));
        assert!(saved.left_out.is_empty());
    }
}

#[test]
fn number_3_as_a_step_meets_it() {
    assert_eq!(refused(&[hex("00 00 04")]), Some(3), "no room for a head");
    assert_eq!(refused(&[hex("01 00 04 00")]), Some(3), "a body past the chunk");
    assert_eq!(refused(&[end(), send()]), Some(3), "bytes after 00");
    assert_eq!(refused(&[opcode(0x01, 0, &[]), vec![0]]), Some(3), "bytes after 01");
}

#[test]
fn number_5_of_every_prescribed_length() {
    assert_eq!(refused(&[opcode(0x11, 0, &[0; 13])]), Some(5));
    assert_eq!(refused(&[video(&[])]), None, "14 bytes are enough");
    for (kind, version, length) in
        [(0x05, 0, 4), (0x05, 1, 6), (0x05, 2, 8), (0x07, 0, 4), (0x07, 1, 6), (0x0B, 0, 6)]
    {
        assert_eq!(refused(&[opcode(kind, version, &vec![9; length])]), None);
        assert_eq!(refused(&[opcode(kind, version, &vec![9; length - 1])]), Some(5));
        assert_eq!(refused(&[opcode(kind, version, &vec![9; length + 1])]), Some(5));
    }
    assert_eq!(refused(&[opcode(0x00, 0, &[1])]), Some(5));
}

#[test]
fn palettes_by_their_content_and_7_is_not_tested() {
    let set = |count: usize, bytes: usize| {
        let body = [&word(250)[..], &word(count), &vec![200; bytes]].concat();
        refused(&[opcode(0x0C, 0, &body)])
    };
    assert_eq!(set(9, 27), None, "entries past the last one, components above 63");
    assert_eq!((set(9, 26), set(9, 28), set(0, 1)), (Some(5), Some(5), Some(5)));
    assert_eq!(refused(&[opcode(0x0C, 0, &[0; 3])]), Some(5), "no two words");
    let mut masks = vec![0; 32];
    assert_eq!(refused(&[opcode(0x0D, 0, &masks)]), None);
    masks[31] = 0x80;
    assert_eq!(refused(&[opcode(0x0D, 0, &masks)]), Some(5));
    masks.extend([255; 3]);
    assert_eq!(refused(&[opcode(0x0D, 0, &masks)]), None);
    masks.push(0);
    assert_eq!(refused(&[opcode(0x0D, 0, &masks)]), Some(5));
}

#[test]
fn sound_whatever_the_stream() {
    let sound = |kind, version, length| refused(&[opcode(kind, version, &vec![0xFF; length])]);
    assert_eq!((sound(0x03, 0, 8), sound(0x03, 1, 10)), (None, None));
    assert_eq!(
        (sound(0x03, 0, 10), sound(0x03, 1, 8), sound(0x03, 2, 12)),
        (Some(5), Some(5), Some(4))
    );
    assert_eq!((sound(0x08, 0, 6), sound(0x08, 0, 99), sound(0x08, 0, 5)), (None, None, Some(5)));
    assert_eq!((sound(0x09, 0, 6), sound(0x09, 0, 7), sound(0x09, 1, 6)), (None, Some(5), Some(4)));
}

#[test]
fn other_refusals_are_not_tested() {
    let film = film(&[chunk(&[video(&[1, 2, 3]), size(0, 99), size(1, 1), size(1, 1)])]);
    assert_eq!(numbers(&film), [0; 0]);
}

#[test]
fn saved_again_nothing_is_left_out() {
    let bad = chunk(&[opcode(0x06, 0, &[])]);
    let film = [film(&[bad.clone(), chunk(&[send()]), bad]), vec![7]].concat();
    let once = saved(&film).film;
    let twice = saved(&once);
    assert_eq!(twice.film, once);
    assert_eq!((twice.stop, twice.lost, twice.rest), (Stop::BehindEnd, 0, 0));
}
