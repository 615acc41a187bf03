//! Differences in pictures with true colour.

use crate::hand::{bare, chunk, last, picture, play, Accounts, PAIR};
use maker::film::{Chunk, Opcode};
use peer::film::INIT_VIDEO;
use peer::played::Picture;

/// A film of two blocks with these chunks between the first and the last.
fn film(chunks: &[Chunk]) -> Vec<u8> {
    let words = [PAIR.columns as u16, PAIR.rows as u16, 1, 1].map(u16::to_le_bytes).concat();
    let first = chunk(INIT_VIDEO, &[Opcode::new(0x05, 2, words)]);
    bare(&[&[first], chunks, &[last()]].concat())
}

/// A picture whose packet has these two parts.
fn parted(map: &[u8], first: &[u16], second: &[u8]) -> Chunk {
    let first: Vec<u8> = first.iter().flat_map(|word| word.to_le_bytes()).collect();
    let offset = (2 + first.len() as u16).to_le_bytes();
    picture(map, &[&offset[..], &first, second].concat())
}

/// A picture of two solid blocks.
fn pair(left: u16, right: u16) -> Chunk {
    parted(&[0xEE], &[left, right], &[])
}

/// The words of two solid blocks.
#[track_caller]
fn solid(picture: &Picture) -> [u16; 2] {
    let [left, right] = [picture.words[0], picture.words[8]];
    assert!(picture.words.chunks(16).all(|row| row == [[left; 8], [right; 8]].concat()));
    [left, right]
}

fn words(accounts: &Accounts) -> [Vec<[u16; 2]>; 2] {
    [&accounts.ours.played, &accounts.libav.played]
        .map(|played| played.pictures.iter().map(solid).collect())
}

/// 02, W7: every stored word has its highest bit cleared. libavcodec keeps it, in data and in copies.
#[test]
fn high_bit() {
    let chunks = [pair(0x8001, 2), pair(3, 0x8004), parted(&[0x10], &[], &[])];
    let [ours, libav] = words(&play(&film(&chunks)).ended());
    assert_eq!(ours, [[1, 2], [3, 4], [3, 2]]);
    assert_eq!(libav, [[0x8001, 2], [3, 0x8004], [3, 2]]);
}

/// 02, W7: any byte left over in the first part, and two in the second, are refused by 15. libavcodec takes any
/// number in both.
#[test]
fn bytes_left_over() {
    let of = |over: &[u16], second: &[u8]| {
        play(&film(&[parted(&[0xEE], &[&[1, 2], over].concat(), second), pair(3, 4)]))
    };
    let expected = vec![[1, 2], [3, 4]];
    for second in [&[][..], &[9]] {
        assert_eq!(words(&of(&[], second).ended()), [&expected[..]; 2]);
    }
    for (over, second) in [(&[9][..], &[][..]), (&[], &[9, 9]), (&[9; 50], &[9; 50])] {
        let [ours, libav] = words(&of(over, second).refused(15, 0));
        assert_eq!((ours, libav), (Vec::new(), expected.clone()));
    }
}

/// 02, W7: an offset below 2 or behind the packet's end is refused by 20. libavcodec takes any: the second part
/// begins with the offset's own bytes, or has none, which gives zeros.
#[test]
fn offsets() {
    // Block 0 is copied from 8 pixels to its right in the oldest picture, by a byte 0; block 1 is solid.
    let of = |offset: u16| {
        let packet = [&offset.to_le_bytes()[..], &[5, 0, 0]].concat();
        play(&film(&[pair(1, 2), pair(3, 4), picture(&[0xE2], &packet)]))
    };
    let expected = vec![[1, 2], [3, 4], [2, 5]];
    assert_eq!(words(&of(4).ended()), [&expected[..]; 2]);
    for offset in [0, 1, 6, 0xFFFF] {
        let [ours, libav] = words(&of(offset).refused(20, 0));
        assert_eq!((&ours[..], &libav), (&expected[..2], &expected), "{offset}");
    }
}

/// 02, W7: the size tells whether a film has true colour; a body of 0x11 under 16 bytes is refused by 5. libavcodec
/// reads no offset, and takes a picture whose blocks need no data.
#[test]
fn short_bodies() {
    let chunks = [pair(1, 2), pair(3, 4), picture(&[0x00], &[]), pair(5, 6)];
    let [ours, libav] = words(&play(&film(&chunks)).refused(5, 0));
    assert_eq!(ours, [[1, 2], [3, 4]]);
    assert_eq!(libav, [[1, 2], [3, 4], [3, 4], [5, 6]]);
}
