//! States and answers about films as numbers: each at its place, and what other counts get. The numbers are
//! worked out by hand from include/mve.h.

use reference::film::{Lent, Span, State, HEADER};
use reference::numbers::{begin, numbers_of, open, shown, shown_words, state_of, step};
use reference::sound::Sound;

const NUMBERS: [usize; 18] = [20, 21, 22, 23, 24, 1, 26, 27, 1, 9, 1, 0, 1, 1, 0, 65_535, 16, 1];

fn state() -> State {
    State {
        position: 20,
        chunk_end: 21,
        columns: 22,
        rows: 23,
        true_colour: true,
        front: 24,
        map: Some(Span { start: 26, length: 27 }),
        unsent: true,
        sound: Sound {
            stream: 9,
            has_format: true,
            stereo: false,
            wide: true,
            compressed: true,
            begun: false,
            left: 65_535,
            right: 16,
        },
    }
}

#[test]
fn places() {
    assert_eq!(numbers_of(state()), NUMBERS);
    assert_eq!(state_of(&NUMBERS), Some(state()));
    let mut odd = NUMBERS;
    for flag in [5, 8, 10, 12, 13, 17] {
        odd[flag] = usize::MAX;
    }
    assert_eq!(state_of(&odd), Some(state()));
    let mut none = NUMBERS;
    none[5] = 0;
    assert_eq!(state_of(&none).map(|state| state.map), Some(None));
    none[6..8].fill(0);
    assert_eq!(numbers_of(State { map: None, ..state() }), none);
    let mut bytes = NUMBERS;
    bytes[17] = 0;
    assert_eq!(numbers_of(State { true_colour: false, ..state() }), bytes);
    assert_eq!(state_of(&bytes).map(|state| state.true_colour), Some(false));
}

#[test]
fn no_states() {
    for count in [0, 1, 16, 17, 19, 26] {
        let numbers: Vec<usize> = NUMBERS.into_iter().cycle().take(count).collect();
        assert_eq!(state_of(&numbers), None, "{count}");
        assert_eq!(shown(&numbers, &[0; 64], &[0; 64]), 0, "{count}");
        assert_eq!(shown_words(&numbers, [&[0; 64]; 3]), 0, "{count}");
    }
    for at in [15, 16] {
        let mut large = NUMBERS;
        large[at] = 65_536;
        assert_eq!(state_of(&large), None);
        large[10] = 0; // without a format, too
        assert_eq!(state_of(&large), None);
    }
}

/// A film of one chunk without an opcode.
fn film() -> Vec<u8> {
    [&HEADER[..], &[0; 4]].concat()
}

/// A step, with a place that no step of this film sets.
fn stepped(from: &[usize], out: &mut [usize]) -> usize {
    let mut place = 5;
    let lent = Lent {
        palette: &mut [1; 768],
        picture_a: &mut [],
        picture_b: &mut [],
        place: &mut place,
        room: &mut [],
        words: Default::default(),
    };
    let returned = step(&film(), from, out, lent, 0, 0);
    assert_eq!(place, 5);
    returned
}

#[test]
fn answers() {
    let first = [26, 26, 0, 0, 0, 0, 0, 0, 2, 16, 0, 3, 0, 0, 0, 4, 0, 0];
    let mut out = [7; 27];
    assert_eq!(stepped(&first, &mut out), 0);
    // The state moves: flags become 1, and what is not read 0.
    let next = [30, 30, 0, 0, 0, 0, 0, 0, 1, 16, 0, 0, 0, 0, 0, 0, 0, 0];
    assert_eq!(out[..], [&[0; 8][..], &next, &[7]].concat());
    // It stays: every number comes back.
    let last = [30, 30, 0, 0, 0, 0, 0, 0, 2, 16, 0, 3, 0, 0, 0, 4, 0, 0];
    assert_eq!(stepped(&last, &mut out), 3);
    assert_eq!(out[..], [&[3, 0, 0, 0, 0, 0, 0, 0][..], &last, &[7]].concat());
    let wrong = [31, 30, 0, 0, 0, 0, 0, 0, 2, 16, 0, 3, 0, 0, 0, 4, 0, 0];
    assert_eq!(stepped(&wrong, &mut out), 4);
    assert_eq!(out[..], [&[4, 16, 0, 0, 0, 0, 0, 0][..], &wrong, &[7]].concat());
    // No state's numbers.
    assert_eq!(stepped(&last[..17], &mut out), 4);
    assert_eq!(out[..], [&[4, 16, 0, 0, 0, 0, 0, 0][..], &[0; 18], &[7]].concat());
}

/// A film with true colour: its size is that of one block, and any number but 0 says so. Before the size
/// none has.
#[test]
fn true_colour() {
    let words = [&[1; 64][..], &[2; 70], &[3; 63]];
    for (number, front, bytes, shown_of_words) in
        [(0, 0, 64, 0), (0, 1, 64, 0), (0, 2, 0, 0), (1, 0, 0, 64), (9, 1, 0, 64), (9, 2, 0, 0)]
    {
        let from = [30, 30, 1, 1, front, 0, 0, 0, 0, 16, 0, 0, 0, 0, 0, 0, 0, number];
        let [a, b] = [&[0; 64][..], &[0; 64]];
        assert_eq!(shown(&from, a, b), bytes, "{number}, {front}");
        assert_eq!(shown_words(&from, words), shown_of_words, "{number}, {front}");
    }
    let mut out = [7; 26];
    let from = [26, 26, 0, 0, 0, 0, 0, 0, 0, 16, 0, 0, 0, 0, 0, 0, 0, 5];
    assert_eq!(stepped(&from, &mut out), 4);
    assert_eq!(out[..], [&[4, 16, 0, 0, 0, 0, 0, 0][..], &from].concat());
}

#[test]
fn openings() {
    let mut out = [7; 26];
    assert_eq!(open(&film(), 3, &mut out), 0);
    let first = [26, 26, 0, 0, 0, 0, 0, 0, 0, 3, 0, 0, 0, 0, 0, 0, 0, 0];
    assert_eq!(out[..], [&[0; 8][..], &first].concat());
    assert_eq!(open(&film()[..25], 3, &mut out), 4);
    assert_eq!(out[..], [&[4, 1, 0, 0, 0, 0, 0, 0][..], &[0; 18]].concat());
    // The film ends without a size.
    assert_eq!(begin(&film(), 3, &mut out, &mut [0; 768], &mut 5), 4);
    let last = [30, 30, 0, 0, 0, 0, 0, 0, 0, 3, 0, 0, 0, 0, 0, 0, 0, 0];
    assert_eq!(out[..], [&[4, 21, 0, 0, 0, 0, 0, 0][..], &last].concat());
}

#[test]
fn short_answers() {
    for count in 0..26 {
        let mut out = vec![7; count];
        assert_eq!(stepped(&NUMBERS, &mut out), 4);
        assert_eq!(open(&film(), 3, &mut out), 4);
        assert_eq!(begin(&film(), 3, &mut out, &mut [], &mut 5), 4);
        assert_eq!(out, vec![7; count]);
    }
}
