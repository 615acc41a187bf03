//! The pictures that a film sends, as PPM files.

mod common;

use common::{chunk, deep_size, film, opcode, parted, send, size, video, word};
use reference::pictures::{self, Played};
use reference::sound::NO_STREAM;
use reference::Refusal;

fn play(film: &[u8]) -> Played {
    pictures::play(film, NO_STREAM)
}

/// Opcodes 0F and 11 of a frame of one solid block.
fn solid(colour: u8) -> [Vec<u8>; 2] {
    [opcode(0x0F, 0, &[0x0E]), video(&[colour])]
}

/// Opcode 0C with one entry.
fn entry(index: u8, colour: [u8; 3]) -> Vec<u8> {
    opcode(0x0C, 0, &[&[index, 0, 1, 0], &colour[..]].concat())
}

/// The picture of a film without a timer that is sent as this one, counted from 0.
fn ppm(number: usize, colour: [u8; 3]) -> Vec<u8> {
    let heading = format!("P6\n# rows 0 to 0\n# at {} us\n8 8\n255\n", number * 66_728);
    [heading.as_bytes(), &colour.repeat(64)].concat()
}

/// Components get 8 bits, the high two again as the low ones: 63 is 255, 1 is 4, 44 is 178.
#[test]
fn palette_is_scaled() {
    let [map, frame] = solid(7);
    let opcodes = [entry(7, [63, 1, 44]), size(1, 1), map, frame, send()];
    let played = play(&film(&[chunk(&opcodes)]));
    assert_eq!(played.pictures, [ppm(0, [255, 4, 178])]);
    assert_eq!((played.position, played.refusal), (26 + 4 + 11 + 8 + 5 + 19 + 8, None));
}

/// A picture for each frame that is sent, with the palette as it then stands: none for a frame that
/// is not sent, and none for a 07 with nothing to send.
#[test]
fn one_for_each_sent() {
    let (one, two, three) = (solid(1), solid(2), solid(3));
    let opcodes = [
        vec![send(), entry(1, [63, 0, 0]), size(1, 1), send()],
        one.to_vec(),
        vec![send(), send(), entry(1, [0, 63, 0])],
        two.to_vec(),
        one.to_vec(),
        vec![send()],
        three.to_vec(),
    ];
    let played = play(&film(&[chunk(&opcodes.concat())]));
    assert_eq!(played.pictures, [ppm(0, [255, 0, 0]), ppm(1, [0, 255, 0])]);
    assert_eq!(played.refusal, None);
}

/// With true colour a word has red in bits 10 to 14, green in 5 to 9, blue in 0 to 4; the high three of five
/// bits come again as the low ones: 31 is 255, 1 is 8, 16 is 132. Each frame touches every row, of whichever of
/// the three pictures.
#[test]
fn true_colour() {
    let solid = |colour| [opcode(0x0F, 0, &[0x0E]), video(&parted(&word(colour), &[]))].concat();
    let opcodes = [
        deep_size(1, 1),
        entry(1, [63, 63, 63]),
        solid(0x7C10),
        send(),
        send(),
        solid(0x83E1),
        solid(0x801F),
        send(),
        // Code 1 is the picture before the last one, code 0 the last.
        [opcode(0x0F, 0, &[0x01]), video(&[2, 0])].concat(),
        send(),
        [opcode(0x0F, 0, &[0x00]), video(&[2, 0])].concat(),
        send(),
    ];
    let played = play(&film(&[chunk(&opcodes)]));
    let [first, second] = [[255, 0, 132], [0, 0, 255]];
    let expected = [ppm(0, first), ppm(1, second), ppm(2, first), ppm(3, first)];
    assert_eq!((played.pictures, played.refusal), (expected.to_vec(), None));
    let played = play(&film(&[chunk(&[deep_size(1, 1), solid(0x83E1), send()])]));
    assert_eq!(played.pictures, [ppm(0, [0, 255, 8])]);
}

/// Opcodes 0F and 11 of a frame of one column and three rows: code E in these rows, else code 1.
fn touching(rows: &[usize]) -> Vec<Vec<u8>> {
    let code = |row| if rows.contains(&row) { 0x0E } else { 0x01 };
    let map = [code(0) | code(1) << 4, code(2)];
    vec![opcode(0x0F, 0, &map), video(&vec![7; rows.len()])]
}

/// The heading of a picture has the rows that were touched since the same lent picture was last sent
/// (02, W2): the first and the last of all packets drawn on it.
#[test]
fn rows_since_last_sent() {
    let opcodes = [
        vec![size(1, 3)],
        touching(&[1]),
        vec![send()], // the second picture: row 1
        touching(&[]),
        vec![send()], // the first one: none
        touching(&[0]),
        touching(&[2]),
        vec![send(), send()], // the second one: rows 0 and 2; then nothing is unsent
        touching(&[2]),
        touching(&[]),
        vec![send()], // the first one: row 2
        touching(&[0]),
        vec![send()],   // the second one: row 0
        touching(&[1]), // never sent
    ];
    let played = play(&film(&[chunk(&opcodes.concat())]));
    assert_eq!(played.refusal, None);
    let rows = ["1 to 1", "none", "0 to 2", "2 to 2", "0 to 0"];
    let times = [0, 66_728, 133_456, 200_184, 266_912].into_iter();
    let headings: Vec<_> = times
        .zip(rows)
        .map(|(time, rows)| format!("P6\n# rows {rows}\n# at {time} us\n8 24\n255\n"))
        .collect();
    assert_eq!(played.pictures.len(), headings.len());
    for (picture, heading) in played.pictures.iter().zip(headings) {
        assert_eq!(picture[..heading.len()], *heading.as_bytes());
        assert_eq!(picture.len(), heading.len() + 3 * 192);
    }
}

/// A timer holds from its opcode on to the next; one of 0 says nothing (003).
#[test]
fn times() {
    let frame = |timer: &[u8]| {
        let timer = (!timer.is_empty()).then(|| opcode(0x02, 0, timer));
        [timer.into_iter().collect(), solid(1).to_vec(), vec![send()]].concat()
    };
    let opcodes = [
        vec![size(1, 1)],
        frame(&[]),
        frame(&[0x10, 0x27, 0, 0, 2, 0]),
        frame(&[1, 0, 0, 0, 0, 0]),
        frame(&[0, 0, 1, 0, 1, 0, 9]),
        frame(&[]),
    ];
    let played = play(&film(&[chunk(&opcodes.concat())]));
    let times = [0, 66_728, 86_728, 106_728, 172_264];
    assert_eq!(played.pictures.len(), times.len());
    for (picture, time) in played.pictures.iter().zip(times) {
        let heading = format!("P6\n# rows 0 to 0\n# at {time} us\n8 8\n");
        assert!(picture.starts_with(heading.as_bytes()), "{time}");
    }
}

/// What was sent before a refusal stays; a refused opening has position 0.
#[test]
fn refused() {
    let [map, frame] = solid(0);
    let film = film(&[chunk(&[size(1, 1), map, frame, send(), opcode(0x06, 0, &[])])]);
    let played = play(&film);
    assert_eq!(played.pictures, [ppm(0, [0; 3])]);
    assert_eq!((played.position, played.refusal), (film.len() - 4, Some(Refusal::new(4))));
    let played = play(&film[1..]);
    assert_eq!((played.pictures.len(), played.position), (0, 0));
    assert_eq!(played.refusal, Some(Refusal::new(1)));
}
