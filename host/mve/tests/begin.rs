//! The sentences of document 02's W8, run on the proved library. The expected values are worked out by
//! hand from the documents.

use mve::{
    begin, open, step, Error, Form, Pictures, Refusal, Sound, State, Step, Unbegun, NO_STREAM,
};

const HEADER: &[u8] = b"Interplay MVE File\x1A\0\x1A\0\0\x01\x33\x11";

fn words(words: &[u16]) -> Vec<u8> {
    words.iter().flat_map(|word| word.to_le_bytes()).collect()
}

/// An opcode with its head.
fn opcode(kind: u8, version: u8, body: &[u8]) -> Vec<u8> {
    [&words(&[body.len() as u16])[..], &[kind, version], body].concat()
}

/// A film of chunks of these opcodes.
fn film(chunks: &[&[Vec<u8>]]) -> Vec<u8> {
    let chunk = |opcodes: &&[Vec<u8>]| {
        let body = opcodes.concat();
        [words(&[body.len() as u16, 0]), body].concat()
    };
    [HEADER, &chunks.iter().flat_map(chunk).collect::<Vec<u8>>()].concat()
}

/// 05, version 0: 3 columns and 2 rows. With its head 8 bytes.
fn size() -> Vec<u8> {
    opcode(0x05, 0, &words(&[3, 2]))
}

/// A palette of 9 and a place of 5 that were lent, and what is answered and left of them.
fn begun(film: &[u8], stream: usize) -> (Result<State, Unbegun>, Vec<u8>, usize) {
    let (mut palette, mut place) = (vec![9; 768], 5);
    let answer = begin(film, stream, &mut palette, &mut place);
    (answer, palette, place)
}

/// The number of a refusal and the position of the state that the refused step was given. Palette and
/// place are as they were.
#[track_caller]
fn refused(film: &[u8], stream: usize) -> (u8, usize) {
    let (answer, palette, place) = begun(film, stream);
    assert_eq!((palette, place), (vec![9; 768], 5));
    let Unbegun { refusal, state } = answer.expect_err("a refusal");
    assert_eq!(refusal.block, 0);
    (refusal.number(), state.position)
}

/// "gives the state just after 05": behind its body, in the same chunk, whatever follows.
#[test]
fn after_the_size() {
    // Header 26, chunk head 4, 04 with 3 bytes 7, an empty chunk 4, chunk head 4, 05 8 bytes.
    let film = film(&[&[opcode(0x04, 9, &[1, 2, 3])], &[], &[size(), opcode(0x06, 0, &[])]]);
    let (answer, palette, place) = begun(&film, 7);
    let state = State {
        position: 53,
        chunk_end: 57,
        columns: 3,
        rows: 2,
        sound: Sound { stream: 7, ..Sound::default() },
        ..State::default()
    };
    assert_eq!((answer, palette, place), (Ok(state), vec![9; 768], 5));
}

/// "and the palette as it then stands", and the place as the steps leave it: a 0F before 05 leaves its
/// map pending and place 0. What stands behind 05 is not done.
#[test]
fn palette_and_place() {
    let entry = |index, colour: [u8; 3]| [words(&[index, 1]), colour.to_vec()].concat();
    let opcodes = [
        opcode(0x0C, 0, &entry(1, [10, 11, 12])),
        opcode(0x0F, 0, &[0xEE]),
        opcode(0x0C, 0, &entry(1, [20, 21, 22])),
        // Red and blue from entry 2 on: 2 rows, 1 column. Red and green are absent.
        opcode(0x0B, 0, &[2, 2, 1, 0, 0, 0]),
        size(),
        opcode(0x0C, 0, &entry(4, [30, 31, 32])),
    ];
    let film = film(&[&opcodes]);
    let (answer, palette, place) = begun(&film, NO_STREAM);
    let mut expected = [[9; 3]; 256];
    expected[1] = [20, 21, 22];
    expected[2] = [0, 0, 0];
    expected[3] = [63, 0, 0];
    assert_eq!((palette, place), (expected.as_flattened().to_vec(), 0));
    // 0C is 11 bytes from 30 on; the map is behind the head of 0F.
    assert_eq!(answer.expect("a size").map, Some((45, 1)));
}

/// "sound met before 05 is decoded and its samples dropped, without 19": 65,535 silent samples of 16
/// bits, then compressed ones, whose last sample the state keeps: 100, then entries 3 and 255, 3 and -1.
#[test]
fn sound_before_the_size() {
    let opcodes = [
        opcode(0x03, 1, &words(&[0, 0b110, 22_050, 0, 0])),
        opcode(0x09, 0, &words(&[0, 1, 65_535])),
        opcode(0x08, 0, &[words(&[1, 1, 3]), words(&[100]), vec![3, 255]].concat()),
        size(),
    ];
    let film = film(&[&opcodes]);
    let sound = begun(&film, 0).0.expect("a size").sound;
    assert!(sound.has_format && sound.wide && sound.compressed && sound.begun && !sound.stereo);
    assert_eq!((sound.left, sound.right), (102, 0));
    // For another stream the packets are passed over.
    assert!(!begun(&film, 1).0.expect("a size").sound.begun);
    // Without one all of it is.
    assert_eq!(begun(&film, 16).0.expect("a size").sound, Sound { stream: 16, ..Sound::default() });
}

/// "Refusals: the first that the separate calls meet .. on each, palette and place are unchanged",
/// also where a palette and a map come before.
#[test]
fn refusals() {
    let entry = opcode(0x0C, 0, &[words(&[1, 1]), vec![1, 2, 3]].concat());
    let before = [entry.clone(), opcode(0x0F, 0, &[1])];
    // 26 and 4, then 11 and 5.
    let with = |opcode: Vec<u8>| film(&[&[&before[..], &[opcode, size()]].concat()]);
    assert_eq!(refused(&with(opcode(0x06, 0, &[])), 16), (4, 46));
    assert_eq!(refused(&with(opcode(0x07, 2, &[0; 8])), 16), (4, 46));
    assert_eq!(refused(&with(opcode(0x07, 1, &[0; 4])), 16), (5, 46));
    assert_eq!(refused(&with(opcode(0x05, 0, &words(&[81, 1]))), 16), (6, 46));
    assert_eq!(refused(&with(opcode(0x05, 2, &words(&[1, 61, 0, 1]))), 16), (6, 46));
    assert_eq!(
        refused(&with(opcode(0x0C, 0, &[words(&[0, 1]), vec![0, 0, 64]].concat())), 16),
        (7, 46)
    );
    assert_eq!(refused(&with(opcode(0x11, 0, &[0; 20])), 16), (9, 46));
    assert_eq!(refused(&with(opcode(0x08, 0, &words(&[0, 1, 0]))), 0), (17, 46));
    let format = opcode(0x03, 0, &words(&[0, 1, 0, 0]));
    let odd = opcode(0x09, 0, &words(&[0, 1, 3]));
    assert_eq!(refused(&with([format, odd].concat()), 0), (18, 58));
    // A chunk that passes the film's end, and an opcode that passes its chunk.
    let whole = film(&[&before, &[size()]]);
    assert_eq!(refused(&whole[..whole.len() - 1], 16), (2, 46));
    let mut long = whole.clone();
    long[50] = 5;
    assert_eq!(refused(&long, 16), (3, 50));
    // 1 comes first, and has a state of zeros; then 8, by the first step, before 2.
    let unbegun = begin(&whole[..25], 3, &mut [], &mut 0).unwrap_err();
    let zeros =
        Unbegun { refusal: Refusal { error: Error::Header, block: 0 }, state: State::default() };
    assert_eq!(unbegun, zeros);
    for length in [0, 767, 769] {
        let unbegun = begin(&whole[..27], 3, &mut vec![0; length], &mut 0).unwrap_err();
        assert_eq!(
            (unbegun.refusal.number(), unbegun.state),
            (8, open(&whole, 3).expect("a header"))
        );
    }
    // A fault behind 05 is not met.
    let behind = film(&[&[size(), opcode(0x06, 0, &[])]]);
    assert!(begun(&behind, 16).0.is_ok());
}

/// "21 if the film ends with no 05": the header alone, chunks without one, and 00 in front of one. The
/// state is that at the film's end.
#[test]
fn no_size() {
    assert_eq!(refused(HEADER, 16), (21, 26));
    let without = film(&[&[opcode(0x04, 0, &[7])], &[]]);
    assert_eq!(refused(&without, 16), (21, without.len()));
    let ended = film(&[&[opcode(0x00, 0, &[])], &[size()]]);
    assert_eq!(refused(&ended, 16), (21, ended.len()));
}

/// "Where none of them refuses, it answers as the separate calls would have": the next step takes what
/// follows from the state, the palette and the place that the call leaves.
#[test]
fn steps_go_on() {
    let film = film(&[&[opcode(0x0F, 0, &[0x11; 3]), size(), opcode(0x11, 0, &[0; 14])]]);
    let (mut palette, mut place) = ([0; 768], 5);
    let state = begin(&film, NO_STREAM, &mut palette, &mut place).expect("a size");
    let (mut a, mut b) = (vec![1; 384], vec![2; 384]);
    let (pictures, form) = (&mut Pictures::bytes(&mut a, &mut b), Form::Default);
    let drawn = step(&film, state, &mut palette, pictures, &mut place, &mut [], 6, form);
    // Six blocks of code 1: a store of the place for each.
    assert!(matches!(drawn, Ok(Step::Whole { stores: 6, rows: None, .. })), "{drawn:?}");
    assert_eq!(place, 6);
}
