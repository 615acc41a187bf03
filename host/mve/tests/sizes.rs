//! The sentences of document 02's W1, run on the proved library. The expected values are worked out
//! by hand from the documents.

use mve::{
    begin, check, draw, shown, step, Error, Form, Pictures, Refusal, State, Step, NO_STREAM,
};

/// The pixels of a picture of 640 by 480.
const LARGEST: usize = 640 * 480;

/// A film of one chunk with a 05 of these two words and, behind it, a 04, which is passed over.
fn film(columns: u16, rows: u16) -> Vec<u8> {
    let words = [columns, rows].map(u16::to_le_bytes).concat();
    let opcodes = [&[4, 0, 0x05, 0][..], &words, &[0, 0, 0x04, 0]].concat();
    let header = b"Interplay MVE File\x1A\0\x1A\0\0\x01\x33\x11";
    [&header[..], &[opcodes.len() as u8, 0, 2, 0], &opcodes].concat()
}

/// Steps with pictures of so many bytes.
fn step_with(film: &[u8], state: State, pixels: usize) -> Result<Step, Refusal> {
    let (mut a, mut b) = (vec![0; pixels], vec![0; pixels]);
    let pictures = &mut Pictures::bytes(&mut a, &mut b);
    step(film, state, &mut [0; 768], pictures, &mut 0, &mut [], 0, Form::Default)
}

/// The state behind the 05 of a film, which is its first opcode.
fn sized(film: &[u8]) -> Result<State, Refusal> {
    begin(film, NO_STREAM, &mut [0; 768], &mut 0).map_err(|unbegun| unbegun.refusal)
}

fn refused<T>(number: usize) -> Result<T, Refusal> {
    Err(Refusal { error: Error::from_number(number).expect("a number of refusal"), block: 0 })
}

/// "Our first real film says 80 by 60 and should fill a 640 by 480 picture."
#[test]
fn first_real_film() {
    let film = film(80, 60);
    let state = sized(&film).expect("a legal size");
    assert_eq!((state.columns, state.rows), (80, 60));
    let (a, b) = (vec![1; LARGEST + 9], vec![2; LARGEST]);
    assert_eq!(shown(&state, &a, &b), vec![1; LARGEST]);
    assert_eq!(shown(&state, &a[..LARGEST - 1], &b), []);
    // The next step asks for pictures of that size.
    let taken = step_with(&film, state, LARGEST);
    assert!(matches!(taken, Ok(Step::Taken { bytes: 0, .. })), "{taken:?}");
    assert_eq!(step_with(&film, state, LARGEST - 1), refused(8));
    // An eighth of the bytes, or a 64th, as for sizes in pixels.
    assert_eq!(step_with(&film, state, LARGEST / 8), refused(8));
    assert_eq!(step_with(&film, state, 80 * 60), refused(8));
}

/// "01's width cases become 80 taken, 0 and 81 refused"; "6 for 0, above 80, or above 60; the
/// multiple-of-8 test goes": in 05, in checking and in drawing.
#[test]
fn limits() {
    for (columns, rows) in [(80, 1), (1, 60), (80, 60), (1, 1), (7, 13), (61, 59)] {
        let (u, v) = (columns as usize, rows as usize);
        let map = vec![0x11; (u * v).div_ceil(2)];
        assert!(sized(&film(columns, rows)).is_ok(), "{columns}x{rows}");
        assert_eq!(check(u, v, &map, &[]), Ok(None), "{columns}x{rows}");
        let (front, mut back, mut place) = (vec![0; 64 * u * v], vec![0; 64 * u * v], 0);
        let drawn = draw(u, v, &map, &[], &front, &mut back, &mut place, 312_000);
        assert_eq!(drawn.map(|drawn| drawn.stores()), Ok(u * v), "{columns}x{rows}");
    }
    for (columns, rows) in [(0, 1), (81, 1), (1, 0), (1, 61), (0, 0), (640, 480), (0xFFFF, 1)] {
        let (u, v) = (columns as usize, rows as usize);
        assert_eq!(sized(&film(columns, rows)), refused(6), "{columns}x{rows}");
        assert_eq!(check(u, v, &[0x11; 41], &[]), refused(6), "{columns}x{rows}");
        let drawn = draw(u, v, &[0x11; 41], &[], &[], &mut [], &mut 0, 312_000);
        assert_eq!(drawn, refused(6), "{columns}x{rows}");
    }
}

/// "The size kept in the state becomes blocks, 1 to 80 and 1 to 60": 16 for any other but 0 by 0.
#[test]
fn states() {
    let film = film(1, 1);
    let state = sized(&film).expect("a legal size");
    let with = |columns, rows| step_with(&film, State { columns, rows, ..state }, LARGEST);
    for (columns, rows) in [(80, 60), (1, 60), (80, 1), (5, 7), (0, 0)] {
        assert!(with(columns, rows).is_ok(), "{columns}x{rows}");
    }
    // Of the last three the product by 8 or 64 is small, if it wraps around.
    let far = [(1 << 61) + 1, (1 << 58) + 1, 1 << 58];
    for blocks in [81, 640, usize::MAX].into_iter().chain(far) {
        assert_eq!(with(blocks, 1), refused(16), "{blocks} columns");
        assert_eq!(with(1, blocks), refused(16), "{blocks} rows");
    }
    for (columns, rows) in [(0, 1), (1, 0), (1, 61), (80, 61), (81, 60)] {
        assert_eq!(with(columns, rows), refused(16), "{columns}x{rows}");
        let illegal = State { columns, rows, ..state };
        assert_eq!(shown(&illegal, &vec![1; 2 * LARGEST], &[]), [], "{columns}x{rows}");
    }
}

/// "And all that read it follow": where each block lies. Six solid blocks, three a row.
#[test]
fn places_of_blocks() {
    let (front, mut back, mut place) = ([0; 384], [0; 384], 0);
    let map = [0xEE; 3];
    let drawn = draw(3, 2, &map, &[1, 2, 3, 4, 5, 6], &front, &mut back, &mut place, 390);
    assert_eq!(drawn.map(|drawn| drawn.stores()), Ok(6 * 65));
    let rows = |colours: [u8; 3]| colours.map(|colour| [colour; 8]).concat().repeat(8);
    assert_eq!(back[..], [rows([1, 2, 3]), rows([4, 5, 6])].concat());
}
