//! Films with true colour (document 02, W7): packets and films worked out by hand.

use mve::{
    begin, check, check_words, check_words_strict, draw_words, open, shown, shown_words, step,
    Drawn, Error, Event, Form, Memory, Pictures, Player, Refusal, Rows, State, Step, NO_STREAM,
};

const HEADER: &[u8] = b"Interplay MVE File\x1A\0\x1A\0\0\x01\x33\x11";

fn word(number: usize) -> [u8; 2] {
    (number as u16).to_le_bytes()
}

/// A packet of these two parts.
fn parts(first: &[u8], second: &[u8]) -> Vec<u8> {
    [&word(2 + first.len())[..], first, second].concat()
}

fn words(colours: &[u16]) -> Vec<u8> {
    colours.iter().flat_map(|colour| colour.to_le_bytes()).collect()
}

fn refused<T>(error: Error) -> Result<T, Refusal> {
    Err(Refusal { error, block: 0 })
}

/// The picture that a single block of this code gives, from pictures of 0x8000 and a number of their own.
fn block(code: u8, first: &[u8]) -> [u16; 64] {
    let (mut drawn, mut place) = ([0x8003; 64], 0);
    let data = parts(first, &[]);
    let answer =
        draw_words(1, 1, &[code], &data, &[0x8001; 64], &[0x8002; 64], &mut drawn, &mut place, 65);
    assert_eq!(answer.map(|answer| answer.stores()), Ok(65));
    assert_eq!(place, 1);
    drawn
}

/// One bit a pixel where the first colour has no high bit, one for 2x2 where it has it. A colour's high bit
/// is not stored, and the second colour's says nothing.
#[test]
fn two_colours() {
    let fine = [words(&[0x1234, 0xFFFF]), vec![0x81, 0, 0, 0, 0, 0, 0, 0xFF]].concat();
    let picture = block(0x7, &fine);
    let (p, q) = (0x1234, 0x7FFF);
    assert_eq!(picture[..16], [q, p, p, p, p, p, p, q, p, p, p, p, p, p, p, p]);
    assert_eq!(picture[56..], [q; 8]);
    let coarse = [words(&[0x9234, 0x7FFF]), vec![0x21, 0x80]].concat();
    let picture = block(0x7, &coarse);
    for row in [0, 1] {
        assert_eq!(picture[8 * row..8 * row + 8], [q, q, p, p, p, p, p, p], "{row}");
        assert_eq!(picture[16 + 8 * row..24 + 8 * row], [p, p, q, q, p, p, p, p], "{row}");
        assert_eq!(picture[48 + 8 * row..56 + 8 * row], [p, p, p, p, p, p, q, q], "{row}");
    }
}

/// The low byte's highest bit is not the colour's.
#[test]
fn high_bit_of_the_second_byte() {
    let fine = [words(&[0x0080, 0x0001]), vec![0; 8]].concat();
    assert_eq!(block(0x7, &fine), [0x80; 64]);
    assert_eq!(check_words(1, 1, &[0x7], &parts(&fine[..6], &[])), refused(Error::DataShort));
}

/// Code 8: quarters of two colours and two bytes, or halves of two colours and four, the second of which begins
/// at byte 8 and says by its first colour whether they are left and right.
#[test]
fn quarters_and_halves() {
    let quarters: Vec<u8> = (0..4_u16)
        .flat_map(|part| [words(&[part + 1, part + 0x8011]), vec![0x01, 0x80]].concat())
        .collect();
    let picture = block(0x8, &quarters);
    for (part, (x, y)) in [(0, 0), (0, 4), (4, 0), (4, 4)].into_iter().enumerate() {
        let (p, q) = (part as u16 + 1, part as u16 + 0x11);
        for field in 0..16 {
            let expected = if matches!(field, 0 | 15) { q } else { p };
            let at = 8 * (y + field / 4) + x + field % 4;
            assert_eq!(picture[at], expected, "part {part}, field {field}");
        }
    }
    let halves = |second: u16| {
        let first = [words(&[0x8001, 2]), vec![1, 0, 0, 0]].concat();
        block(0x8, &[first, words(&[second, 4]), vec![0, 0, 0, 0x80]].concat())
    };
    let (beside, below) = (halves(3), halves(0x8003));
    assert_eq!(beside[..8], [2, 1, 1, 1, 3, 3, 3, 3]);
    assert_eq!(beside[56..], [1, 1, 1, 1, 3, 3, 3, 4]);
    assert_eq!(below[..8], [2, 1, 1, 1, 1, 1, 1, 1]);
    assert_eq!(below[24..40], [[1; 8], [3; 8]].concat());
    assert_eq!(below[56..], [3, 3, 3, 3, 3, 3, 3, 4]);
}

/// Code 9: four colours; the first and the third say how large a field is.
#[test]
fn four_colours() {
    let of = |first: u16, third: u16, bits: &[u8]| {
        block(0x9, &[words(&[first, 0x8002, third, 0x8004]), bits.to_vec()].concat())
    };
    let fields = [0xE4; 16]; // 0 1 2 3 from the low end
    assert_eq!(of(1, 3, &fields)[..16], [1, 2, 3, 4].repeat(4));
    let wide = [1, 1, 2, 2, 3, 3, 4, 4];
    assert_eq!(of(1, 0x8003, &fields[..4])[..24], [wide, wide, wide].concat());
    assert_eq!(of(0x8001, 3, &fields[..8])[..16], [wide, wide].concat());
    let high = [1, 2, 3, 4].repeat(2);
    assert_eq!(of(0x8001, 0x8003, &fields[..8])[..16], [&high[..], &high].concat());
}

/// Code A: quarters of four colours and four bytes; halves of four colours and eight.
#[test]
fn four_colours_in_parts() {
    let part = |first: u16, bits: usize| [words(&[first, 2, 3, 4]), vec![0xE4; bits]].concat();
    let picture = block(0xA, &[part(1, 4), part(0x8001, 4), part(1, 4), part(1, 4)].concat());
    assert_eq!(picture[..], [1, 2, 3, 4].repeat(16));
    for second in [5, 0x8005] {
        let picture = block(0xA, &[part(0x8001, 8), part(second, 8)].concat());
        assert_eq!(picture[..4], [1, 2, 3, 4]);
        let beside = [1, 2, 3, 4, 5, 2, 3, 4];
        let expected = if second == 5 { beside } else { [1, 2, 3, 4, 1, 2, 3, 4] };
        assert_eq!(picture[..8], expected);
        assert_eq!(picture[60..], [5, 2, 3, 4]);
    }
}

/// B to E: a colour for each pixel, 2x2, 4x4 and 8x8.
#[test]
fn cells() {
    for (code, side) in [(0xB, 1), (0xC, 2), (0xD, 4), (0xE, 8)] {
        let count = 64 / (side * side);
        let colours: Vec<u16> = (0..count).map(|number| 0x8000 + 7 * number as u16).collect();
        let picture = block(code, &words(&colours));
        for (at, &pixel) in picture.iter().enumerate() {
            let cell = at / 8 / side * (8 / side) + at % 8 / side;
            assert_eq!(pixel, 7 * cell as u16, "code {code:X}, pixel {at}");
        }
    }
}

/// Codes 0, 4 and 5 read the last picture, 1, 2, 6 and F the oldest, 3 the new one. All clear the high bit.
#[test]
fn copies() {
    let (last, oldest): (Vec<u16>, Vec<u16>) =
        (0..128).map(|pixel| (0x8100 + pixel, 0x8200 + pixel)).unzip();
    // The second block of two, from 8 pixels to the left where the code has a vector.
    for (code, first, second, expected) in [
        (0x0, &[][..], &[][..], 0x108),
        (0x1, &[], &[], 0x208),
        (0x3, &[], &[0], 0x011),
        (0x4, &[], &[0x80], 0x100),
        (0x5, &[0xF8, 0], &[], 0x100),
        (0x6, &[0xF8, 0], &[], 0x200),
        (0xF, &[], &[], 0x208),
    ] {
        let (mut drawn, mut place) = (vec![0xFFFF; 128], 0);
        let data = parts(&[&[0x11, 0x80], first].concat(), second);
        let map = [code << 4 | 0xE];
        let answer = draw_words(2, 1, &map, &data, &last, &oldest, &mut drawn, &mut place, 130);
        let rows = Some(Rows { first: 0, last: 0 });
        assert_eq!(answer, Ok(Drawn::Whole { stores: 130, rows }), "code {code:X}");
        assert_eq!(drawn[..8], [0x11; 8], "code {code:X}");
        assert_eq!(drawn[8], expected, "code {code:X}");
        let below = if code == 0x3 { expected } else { expected + 16 };
        assert_eq!(drawn[24], below, "code {code:X}");
    }
    // Code 2 with offset 8, 0: the first block from the second.
    let (mut drawn, mut place) = (vec![0; 128], 0);
    let data = parts(&[1, 0], &[0]);
    draw_words(2, 1, &[0xE2], &data, &last, &oldest, &mut drawn, &mut place, 130)
        .expect("a packet");
    assert_eq!((drawn[0], drawn[16], drawn[8]), (0x208, 0x218, 1));
}

/// 20: a packet under 2 bytes, an offset below 2 or behind the end. An offset that is the packet's length is
/// taken. It comes behind 10 and before all blocks.
#[test]
fn two_parts() {
    for data in [&[][..], &[2], &[0, 0], &[1, 0], &[3, 0], &[2, 1], &[0xFF, 0xFF, 0, 0]] {
        assert_eq!(check_words(1, 1, &[0x00], data), refused(Error::Parts), "{data:?}");
        assert_eq!(check_words(1, 1, &[0x0E], data), refused(Error::Parts), "{data:?}");
        assert_eq!(check_words(1, 1, &[], data), refused(Error::MapLength), "{data:?}");
        let answer = draw_words(1, 1, &[0], data, &[0; 64], &[0; 64], &mut [0; 64], &mut 2, 65);
        assert_eq!(answer, refused(Error::Place), "{data:?}");
    }
    assert!(check_words(1, 1, &[0x00], &[2, 0]).is_ok());
}

/// 15: any byte left over in the first part; in the second two, or in the strict form one.
#[test]
fn bytes_left_over() {
    for (first, second, default, strict) in [
        (2, 0, true, true),
        (2, 1, true, false),
        (2, 2, false, false),
        (3, 0, false, false),
        (3, 1, false, false),
    ] {
        let data = parts(&vec![0; first], &vec![0; second]);
        assert_eq!(check_words(1, 1, &[0x0E], &data).is_ok(), default, "{first}, {second}");
        assert_eq!(check_words_strict(1, 1, &[0x0E], &data).is_ok(), strict, "{first}, {second}");
        if !default {
            assert_eq!(check_words(1, 1, &[0x0E], &data), refused(Error::DataLeft));
        }
    }
}

/// 13: either part is too short; 14: a copy from outside; never 12. Pictures that are too short: 8.
#[test]
fn blocks_refused() {
    assert_eq!(check_words(1, 1, &[0x02], &[2, 0]), refused(Error::DataShort));
    assert_eq!(check_words(1, 1, &[0x02], &[2, 0, 0]), refused(Error::CopyOutside));
    assert_eq!(check_words(1, 1, &[0x06], &[2, 0, 0, 0]), refused(Error::DataShort));
    assert!(check_words(1, 1, &[0x06], &[4, 0, 0, 0]).is_ok());
    assert_eq!(check_words(1, 1, &[0x06], &[4, 0, 1, 0]), refused(Error::CopyOutside));
    assert_eq!(check(1, 1, &[0x06], &[4, 0, 0, 0]), refused(Error::Code6));
    for (last, oldest, drawn) in [(63, 64, 64), (64, 63, 64), (64, 64, 63)] {
        let [last, oldest, mut drawn] = [last, oldest, drawn].map(|length| vec![0; length]);
        let answer = draw_words(1, 1, &[0x0E], &[], &last, &oldest, &mut drawn, &mut 9, 65);
        assert_eq!(answer, refused(Error::LentLength));
    }
}

fn opcode(kind: u8, version: u8, body: &[u8]) -> Vec<u8> {
    [&word(body.len())[..], &[kind, version], body].concat()
}

fn size(columns: usize, rows: usize, true_colour: usize) -> Vec<u8> {
    opcode(0x05, 2, &[word(columns), word(rows), word(1), word(true_colour)].concat())
}

fn frame(map: &[u8], packet: &[u8]) -> Vec<u8> {
    [opcode(0x0F, 0, map), opcode(0x11, 0, &[&[0; 14], packet].concat())].concat()
}

fn send() -> Vec<u8> {
    opcode(0x07, 0, &[0; 4])
}

fn film(opcodes: &[Vec<u8>]) -> Vec<u8> {
    let body = opcodes.concat();
    [HEADER, &word(body.len()), &word(3), &body].concat()
}

/// Five pictures of one block, each with bytes or words of its own.
struct Lent {
    bytes: [[u8; 64]; 2],
    words: [[u16; 64]; 3],
}

impl Lent {
    const fn new() -> Lent {
        Lent { bytes: [[1; 64], [2; 64]], words: [[0x8003; 64], [0x8004; 64], [0x8005; 64]] }
    }

    fn step(&mut self, film: &[u8], state: State) -> Result<Step, Refusal> {
        let ([a, b], [c, d, e]) = (&mut self.bytes, &mut self.words);
        let pictures = &mut Pictures { a, b, c, d, e };
        step(film, state, &mut [0; 768], pictures, &mut 0, &mut [], 312_000, Form::Default)
    }
}

/// A frame of one block of this colour.
fn colour(colour: u16) -> Vec<u8> {
    frame(&[0x0E], &parts(&words(&[colour]), &[]))
}

/// With front f, f is the last, f + 1 the new and f + 2 the oldest, modulo 3; 0x07 turns them where a frame is
/// finished, and does nothing where none is. The byte pictures stay.
#[test]
fn pictures_in_turn() {
    let copy = frame(&[0x01], &parts(&[], &[]));
    let film = film(&[
        size(1, 1, 9),
        send(),
        colour(0x8011),
        send(),
        send(),
        colour(0x12),
        send(),
        copy.clone(),
        send(),
        copy,
        send(),
    ]);
    let mut lent = Lent::new();
    let mut state = begin(&film, NO_STREAM, &mut [0; 768], &mut 0).expect("a size");
    assert!(state.true_colour && state.front == 0);
    let mut sent = Vec::new();
    loop {
        let before = state;
        match lent.step(&film, state).expect("a good film") {
            Step::Ended { .. } => break,
            Step::Whole { state: next, stores, rows } => {
                assert_eq!((stores, rows), (65, Some(Rows { first: 0, last: 0 })));
                state = next;
            }
            next => state = next.state(),
        }
        let [c, d, e] = &lent.words;
        assert!(shown(&state, &lent.bytes[0], &lent.bytes[1]).is_empty());
        if mve::is_sent(&before, &state) {
            let picture = shown_words(&state, c, d, e);
            assert_eq!(picture, [picture[0]; 64]);
            sent.push((state.front, picture[0]));
        } else {
            assert_eq!(state.front, before.front);
        }
    }
    // The third frame copies what was shown before the last picture; so does the fourth.
    assert_eq!(sent, [(1, 0x11), (2, 0x12), (0, 0x11), (1, 0x12)]);
    assert_eq!(lent.bytes, Lent::new().bytes);
}

/// 8 tests the pictures of the film's own kind alone, and none before the size.
#[test]
fn lent_pictures() {
    for (true_colour, own) in
        [(0, [true, true, false, false, false]), (1, [false, false, true, true, true])]
    {
        let film = film(&[size(1, 1, true_colour), send()]);
        let sized = begin(&film, NO_STREAM, &mut [0; 768], &mut 0).expect("a size");
        assert_eq!(sized.true_colour, true_colour == 1);
        for (short, is_own) in own.into_iter().enumerate() {
            let length = |picture| if picture == short { 63 } else { 64 };
            let [mut a, mut b] = [0, 1].map(|picture| vec![0; length(picture)]);
            let [mut c, mut d, mut e] = [2, 3, 4].map(|picture| vec![0; length(picture)]);
            let pictures = &mut Pictures { a: &mut a, b: &mut b, c: &mut c, d: &mut d, e: &mut e };
            let mut take = |state| {
                step(&film, state, &mut [0; 768], pictures, &mut 0, &mut [], 0, Form::Default)
            };
            assert_eq!(take(sized).is_err(), is_own, "{true_colour}, {short}");
            assert!(take(open(&film, NO_STREAM).expect("a header")).is_ok());
        }
    }
}

/// 16: front above 1, with true colour above 2; true colour without a size.
#[test]
fn states() {
    let film = film(&[size(1, 1, 1), send()]);
    let sized = begin(&film, NO_STREAM, &mut [0; 768], &mut 0).expect("a size");
    for (true_colour, front, taken) in
        [(true, 2, true), (true, 3, false), (false, 1, true), (false, 2, false)]
    {
        let mut lent = Lent::new();
        let state = State { true_colour, front, ..sized };
        assert_eq!(lent.step(&film, state).is_ok(), taken, "{true_colour}, {front}");
        let [c, d, e] = &lent.words;
        assert_eq!(shown_words(&state, c, d, e).len(), if true_colour && taken { 64 } else { 0 });
    }
    let unsized_ = State { true_colour: true, ..open(&film, NO_STREAM).expect("a header") };
    assert_eq!(Lent::new().step(&film, unsized_), refused(Error::State));
}

/// 5 for a body of 0x11 under 16 bytes, once such a size is known, before 9; 14 are enough before that.
#[test]
fn bodies() {
    for (columns, length, expected) in [
        (Some(1), 13, Error::BodyLength),
        (Some(1), 14, Error::BodyLength),
        (Some(1), 15, Error::BodyLength),
        (Some(1), 16, Error::NoFrame),
        (Some(0), 13, Error::BodyLength),
        (Some(0), 14, Error::NoFrame),
        (None, 13, Error::BodyLength),
        (None, 14, Error::NoFrame),
    ] {
        let first = columns.map_or_else(send, |true_colour| size(1, 1, true_colour));
        let film = film(&[first, opcode(0x11, 0, &vec![0; length])]);
        let (mut lent, mut state) = (Lent::new(), open(&film, NO_STREAM).expect("a header"));
        for _ in 0..2 {
            state = lent.step(&film, state).expect("a head, and an opcode").state();
        }
        assert_eq!(lent.step(&film, state), refused(expected), "{columns:?}, {length}");
    }
    // With a map the packet itself is refused.
    let film = film(&[size(1, 1, 1), frame(&[0x00], &[3, 0])]);
    let (mut lent, mut state) = (Lent::new(), open(&film, NO_STREAM).expect("a header"));
    for _ in 0..3 {
        state = lent.step(&film, state).expect("a head, and opcodes").state();
    }
    assert_eq!(lent.step(&film, state), refused(Error::Parts));
}

/// The player shows words of a film with true colour, and their colours.
#[test]
fn player() {
    let film = film(&[size(1, 1, 1), colour(0xFC10), send()]);
    let mut lent = Lent::new();
    let ([a, b], [c, d, e]) = (&mut lent.bytes, &mut lent.words);
    let (palette, place, room) = (&mut [0; 768], &mut 0, &mut []);
    let memory = Memory { palette, pictures: Pictures { a, b, c, d, e }, place, room };
    let mut player = Player::begin(&film, NO_STREAM, memory).expect("a size");
    let mut pictures = 0;
    while let Some(event) = player.step().expect("a good film") {
        if let Event::Picture(picture) = event {
            assert_eq!((picture.pixels, picture.words), (&[][..], &[0x7C10; 64][..]));
            assert!(picture.rgb().eq([[255, 0, 132]; 64]));
            pictures += 1;
        }
    }
    assert_eq!(pictures, 1);
}
