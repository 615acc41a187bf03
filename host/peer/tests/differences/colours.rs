//! Differences in colours.

use crate::hand::{chunk, film, opcode, packet, pair, palette, picture, play, send, PAIR};
use maker::film::Opcode;
use maker::Size;
use peer::film::{STREAM, VIDEO};
use reference::pictures;

/// A film with this opcode of the palette in front of its picture.
fn coloured(opcode: Opcode) -> Vec<u8> {
    film(PAIR, &[chunk(VIDEO, &[opcode]), pair(1, 2)])
}

/// 003: components are 0 to 63; the library gives them as they are. libavformat repeats the two highest
/// bits behind the lowest, and so do our players.
#[test]
fn eight_bits() {
    let grey: Vec<u8> = (0..64).flat_map(|component| [component; 3]).collect();
    let pixels: Vec<u8> = (0..64).collect();
    let chunks = [chunk(VIDEO, &[palette(0, &grey)]), picture(&[0x0B], &pixels)];
    let bytes = film(Size::new(1, 1), &chunks);
    let played = play(&bytes).ended();
    assert_eq!(played.ours.played.pictures[0].colours[..192], grey);
    let libav = &played.libav.played.pictures[0].colours[..192];
    let widened: Vec<u8> = grey.iter().map(|&component| mve::widened(component)).collect();
    assert_eq!(libav, widened);
    let ppm = &pictures::play(&bytes, STREAM).pictures[0];
    assert_eq!(ppm[ppm.len() - 192..], widened);
}

/// 01: 0B stores gradients. libavformat passes over it.
#[test]
fn gradients() {
    let played = play(&coloured(opcode(0x0B, &[0, 2, 2, 0, 0, 0]))).ended();
    let red_blue = [0, 0, 0, 0, 0, 39, 63, 0, 0, 63, 0, 39];
    assert_eq!(played.ours.played.pictures[0].colours[..12], red_blue);
    assert_eq!(played.libav.played.pictures[0].colours, [0; 768]);
}

/// 01: 0D stores entries by mask. libavformat passes over it.
#[test]
fn entries_by_mask() {
    let body = [&[0b101, 1, 2, 3, 4, 5, 6][..], &[0; 31]].concat();
    let played = play(&coloured(opcode(0x0D, &body))).ended();
    assert_eq!(played.ours.played.pictures[0].colours[..9], [1, 2, 3, 0, 0, 0, 4, 5, 6]);
    assert_eq!(played.libav.played.pictures[0].colours, [0; 768]);
}

/// 01: each opcode acts where it stands, so a palette behind the 07 is not yet there when the picture
/// is sent. libavformat gives a picture the palette as its chunk leaves it.
#[test]
fn palette_behind_the_sending() {
    let [map, video] = packet(&[0xEE], &[1, 2]);
    let opcodes = [palette(0, &[1; 3]), map, video, send(), palette(0, &[2; 3])];
    let played = play(&film(PAIR, &[chunk(VIDEO, &opcodes), pair(3, 4)])).ended();
    let ours = played.ours.played.pictures.iter().map(|picture| picture.colours[0]);
    let libav = played.libav.played.pictures.iter().map(|picture| picture.colours[0] >> 2);
    assert_eq!(ours.collect::<Vec<_>>(), [1, 2]);
    assert_eq!(libav.collect::<Vec<_>>(), [2, 2]);
}

/// 01: start plus count is at most 256, so 256 with count 0 is taken. libavformat reads no further.
#[test]
fn no_entry_at_256() {
    let both = play(&coloured(palette(255, &[]))).ended();
    assert_eq!(both.blocks(), [[[1, 2]]; 2]);
    let played = play(&coloured(palette(256, &[])));
    assert_eq!(played.ours.refusal, None);
    assert!(played.libav.error.is_some());
    let [ours, libav] = played.blocks();
    assert_eq!(ours, [[1, 2]]);
    assert!(libav.is_empty());
}
