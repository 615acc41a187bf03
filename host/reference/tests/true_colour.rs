//! Films with true colour (02, W7): the size, the three pictures and how sending turns them, the refusals of
//! their steps, cuts, openings, the listing, and that other calls take them. Worked out by hand.

mod common;

use common::{chunk, deep_size, film, hex, opcode, parted, send, size, video, word, Lent};
use reference::begin::begin;
use reference::cuts::{self, at_every_store, listed, Film, Memory, Sent, Store};
use reference::film::{open, shown, shown_words, State, Stepped};
use reference::listing::list;
use reference::salvage::salvage;
use reference::sound::NO_STREAM;
use reference::strip::strip;
use reference::{CallForm, Refusal, Rows};

/// The only row of a frame of one row.
const ROW: Option<Rows> = Some(Rows { first: 0, last: 0 });

fn refused(number: u8) -> Stepped {
    Stepped::Refused(Refusal { number, block: 0 })
}

/// The film of a chunk with these opcodes, and the state behind so many steps.
fn walked(opcodes: &[Vec<u8>], pixels: usize, steps: usize) -> (Vec<u8>, State, Lent) {
    let film = film(&[chunk(opcodes)]);
    let mut lent = Lent::zero_words(pixels);
    let state = lent.steps(&film, open(&film, NO_STREAM).expect("a good header"), steps);
    (film, state, lent)
}

/// A frame of one solid block.
fn solid(colour: usize) -> Vec<u8> {
    [opcode(0x0F, 0, &[0x0E]), video(&parted(&word(colour), &[]))].concat()
}

/// Any word but 0 says that a film has true colour, in version 2 alone. 6 is met by the size, as before.
#[test]
fn size_and_kind() {
    for (version, body, kind) in [
        (0, "50 00 3c 00", false),
        (1, "50 00 3c 00 01 00", false),
        (2, "50 00 3c 00 01 00 00 00", false),
        (2, "50 00 3c 00 00 00 01 00", true),
        (2, "50 00 3c 00 ff ff 00 01", true),
        (2, "50 00 3c 00 00 00 ff ff", true),
    ] {
        let (_, state, _) = walked(&[opcode(0x05, version, &hex(body))], 0, 2);
        assert_eq!((state.columns, state.rows, state.true_colour), (80, 60, kind), "{body}");
        assert_eq!((state.front, state.unsent), (0, false));
    }
    for body in ["00 00 01 00", "51 00 01 00", "01 00 00 00", "01 00 3d 00"] {
        let body = [hex(body), hex("00 00 01 00")].concat();
        let (film, state, mut lent) = walked(&[opcode(0x05, 2, &body)], 0, 1);
        assert_eq!(lent.step(&film, state, 0), refused(6));
        assert!(!state.true_colour);
    }
    for again in [deep_size(1, 1), size(1, 1)] {
        let (film, state, mut lent) = walked(&[deep_size(1, 1), again], 64, 2);
        assert_eq!(lent.step(&film, state, 0), refused(6));
    }
    let (film, state, mut lent) = walked(&[size(1, 1), deep_size(1, 1)], 0, 2);
    lent.a = vec![0; 64];
    lent.b = vec![0; 64];
    assert_eq!(lent.step(&film, state, 0), refused(6));
}

/// Three frames are drawn on the second, the third and the first picture; each is shown when it is sent.
/// A send without a finished frame turns nothing.
#[test]
fn sending_turns_three_pictures() {
    let opcodes = [
        deep_size(1, 1),
        send(),
        solid(0x8007),
        send(),
        send(),
        solid(8),
        send(),
        solid(9),
        send(),
        // Code 1, the picture before the last one: that is 8 now, and then 9.
        [opcode(0x0F, 0, &[0x01]), video(&[2, 0])].concat(),
        send(),
        [opcode(0x0F, 0, &[0x01]), video(&[2, 0])].concat(),
        send(),
        // Code 0, the last one.
        [opcode(0x0F, 0, &[0x00]), video(&[2, 0])].concat(),
        send(),
    ];
    let film = film(&[chunk(&opcodes)]);
    let mut lent = Lent::zero_words(70);
    let mut state = open(&film, NO_STREAM).expect("a good header");
    let mut seen = Vec::new();
    loop {
        let before = state;
        state = match lent.step(&film, state, 312_000) {
            Stepped::Taken(after, ..) => after,
            Stepped::Whole(after, 65, ROW) => after,
            Stepped::Ended(_) => break,
            other => panic!("{other:?}"),
        };
        assert!(shown(&state, &[1; 64], &[1; 64]).is_empty() || !state.true_colour);
        if before.unsent && !state.unsent {
            let [a, b, c] = &lent.words;
            seen.push((state.front, shown_words(&state, [a, b, c]).to_vec()));
        } else {
            assert_eq!(before.front, state.front);
        }
    }
    let expected = [(1, 7), (2, 8), (0, 9), (1, 8), (2, 9), (0, 9)];
    assert_eq!(seen, expected.map(|(front, colour)| (front, vec![colour; 64])));
    for words in &lent.words {
        assert_eq!(words[64..], [0; 6]);
    }
}

/// With front f the last picture is f, the new one f + 1, the oldest f + 2, modulo 3: four blocks of codes
/// 0, 1, 3 and E, from every front.
#[test]
fn roles() {
    let map = opcode(0x0F, 0, &[0x1E, 0x03]);
    let opcodes = [deep_size(4, 1), map, video(&parted(&[5, 0], &[0]))];
    for front in 0..3 {
        let (film, state, mut lent) = walked(&opcodes, 256, 3);
        for (number, words) in lent.words.iter_mut().enumerate() {
            *words = vec![0x8010 + number as u16; 256];
        }
        let before = lent.clone();
        let state = State { front, ..state };
        let after = State { position: film.len(), map: None, unsent: true, ..state };
        assert_eq!(lent.step(&film, state, 312_000), Stepped::Whole(after, 260, ROW));
        // E, 1, 3 (a copy of the one on its left), 0.
        let (last, oldest) = (0x10 + front as u16, 0x10 + (front as u16 + 2) % 3);
        for row in lent.words[(front + 1) % 3].chunks(32) {
            assert_eq!(row, [[5; 8], [oldest; 8], [oldest; 8], [last; 8]].concat());
        }
        for older in [front, (front + 2) % 3] {
            assert_eq!(lent.words[older], before.words[older]);
        }
        assert_eq!(lent.place, 4);
    }
}

/// 16: front 2 only with true colour, above 2 never; true colour without a size never.
#[test]
fn number_16_state() {
    let (film, state, lent) = walked(&[deep_size(1, 1), opcode(0x04, 0, &[])], 64, 2);
    let step = |state| lent.clone().step(&film, state, 0);
    for front in [0, 1, 2] {
        let state = State { front, ..state };
        let after = State { position: film.len(), ..state };
        assert_eq!(step(state), Stepped::Taken(after, 0, 0));
    }
    for wrong in [
        State { front: 3, ..state },
        State { front: usize::MAX, ..state },
        State { front: 2, true_colour: false, ..state },
        State { columns: 0, rows: 0, ..state },
        State { columns: 0, ..state },
        State { columns: 81, ..state },
        State { rows: 61, ..state },
    ] {
        assert_eq!(step(wrong), refused(16), "{wrong:?}");
        // 16 comes before 8.
        let mut none = Lent { palette: Vec::new(), ..lent.clone() };
        assert_eq!(none.step(&film, wrong, 0), refused(16));
        let [a, b, c] = &lent.words;
        assert!(shown_words(&wrong, [a, b, c]).is_empty());
    }
}

/// 8: the pictures of the film's own kind, and the palette, at every step once a size is known.
#[test]
fn number_8_lent() {
    let opcodes = [deep_size(2, 1), opcode(0x04, 0, &[])];
    let (film, state, lent) = walked(&opcodes, 128, 2);
    let step = |lent: &Lent| lent.clone().step(&film, state, 0);
    let taken = Stepped::Taken(State { position: film.len(), ..state }, 0, 0);
    assert_eq!(step(&lent), taken);
    // Pictures of bytes are not looked at.
    assert_eq!(step(&Lent { a: vec![0; 1], b: vec![0; 127], ..lent.clone() }), taken);
    for short in 0..3 {
        let mut other = lent.clone();
        other.words[short].pop();
        other.a = vec![0; 128];
        other.b = vec![0; 128];
        assert_eq!(step(&other), refused(8));
        assert_eq!(step(&Lent { words: Default::default(), ..lent.clone() }), refused(8));
    }
    for length in [0, 767, 769] {
        assert_eq!(step(&Lent { palette: vec![0; length], ..lent.clone() }), refused(8));
    }
    // Nor are those of words in a film of bytes; before the size nothing is.
    let (film, state, mut lent) = walked(&[size(2, 1), opcode(0x04, 0, &[])], 0, 2);
    assert_eq!(lent.step(&film, state, 0), refused(8));
    (lent.a, lent.b) = (vec![0; 128], vec![0; 128]);
    let after = State { position: film.len(), ..state };
    assert_eq!(lent.step(&film, state, 0), Stepped::Taken(after, 0, 0));
}

/// 5: a body of 11 under 16 bytes, once such a size is known; before 9. With no size 14 are enough, and 9
/// follows; of a film of bytes 14 are enough, too.
#[test]
fn number_5_body() {
    let map = opcode(0x0F, 0, &[0x00]);
    let video = |length: usize| opcode(0x11, 0, &[&[0xEE; 14][..], &[2, 0, 0]].concat()[..length]);
    for (before, length, number) in [
        (vec![], 13, Some(5)),
        (vec![], 14, Some(9)),
        (vec![], 15, Some(9)),
        (vec![map.clone()], 14, Some(9)),
        (vec![deep_size(1, 1)], 13, Some(5)),
        (vec![deep_size(1, 1)], 14, Some(5)),
        (vec![deep_size(1, 1)], 15, Some(5)),
        (vec![deep_size(1, 1)], 16, Some(9)),
        (vec![deep_size(1, 1), map.clone()], 14, Some(5)),
        (vec![deep_size(1, 1), map.clone()], 15, Some(5)),
        (vec![deep_size(1, 1), map.clone()], 16, None),
        (vec![map.clone(), deep_size(1, 1)], 16, None),
        (vec![size(1, 1)], 14, Some(9)),
        (vec![size(1, 1), map.clone()], 13, Some(5)),
        (vec![size(1, 1), map.clone()], 14, None),
        (vec![size(1, 1), map.clone()], 15, None),
        (vec![size(1, 1), map.clone()], 16, Some(15)),
    ] {
        let film = film(&[chunk(&[before, vec![video(length)]].concat())]);
        let mut lent = Lent { words: [(); 3].map(|()| vec![0; 64]), ..Lent::zero(64) };
        let (_, refusal) = lent.run(&film);
        assert_eq!(refusal.map(|refusal| refusal.number), number, "{length}");
    }
}

/// The numbers of a drawing in a film, with their blocks: 10, 11, 20, 13, 14, 15. 12 is none of them.
#[test]
fn numbers_10_to_20() {
    for (map, packet, place, number, block) in [
        (&[][..], vec![0, 0], 9, 10, 0),
        (&[0xEE, 0xEE], vec![0, 0], 9, 10, 0),
        (&[0xEE], vec![0, 0], 3, 11, 0),
        (&[0xEE], vec![0, 0], 2, 20, 0),
        (&[0xEE], vec![1, 0, 9], 0, 20, 0),
        (&[0x66], vec![7, 0, 9, 9, 9, 9], 0, 20, 0),
        (&[0x6E], parted(&[7, 0, 0], &[]), 0, 13, 1),
        (&[0x2E], parted(&[7, 0, 9], &[]), 0, 13, 1),
        (&[0x6E], parted(&[7, 0, 1, 0], &[]), 0, 14, 1),
        (&[0x26], parted(&[0, 0], &[0]), 0, 14, 1),
        (&[0x66], parted(&[0, 0, 0, 0, 0], &[]), 0, 15, 0),
        (&[0x66], parted(&[0, 0, 0, 0], &[0, 0]), 0, 15, 0),
    ] {
        let opcodes = [deep_size(2, 1), opcode(0x0F, 0, map), video(&packet)];
        let (film, state, mut lent) = walked(&opcodes, 128, 3);
        lent.place = place;
        let before = lent.clone();
        let answer = Stepped::Refused(Refusal { number, block });
        assert_eq!(lent.step(&film, state, 312_000), answer, "{map:?} {packet:?}");
        assert_eq!(lent, before);
    }
    // One byte may be left in the second part, but not in the strict form.
    let opcodes = [deep_size(2, 1), opcode(0x0F, 0, &[0x66]), video(&parted(&[0; 4], &[9]))];
    let (film, state, lent) = walked(&opcodes, 128, 3);
    let whole = lent.clone().step_as(CallForm::Default, &film, state, 312_000);
    assert!(matches!(whole, Stepped::Whole(_, 130, ROW)));
    assert_eq!(lent.clone().step_as(CallForm::Strict, &film, state, 312_000), refused(15));
}

/// Palettes act as in other films, also between the pictures.
#[test]
fn palettes() {
    let colours = opcode(0x0C, 0, &[1, 0, 1, 0, 7, 8, 9]);
    let (_, state, lent) = walked(&[deep_size(1, 1), solid(5), colours, send()], 64, 6);
    assert_eq!(lent.palette[..6], [0, 0, 0, 7, 8, 9]);
    assert_eq!((state.front, &lent.words[1]), (1, &vec![5; 64]));
}

/// The opening gives the state behind the size, which tells the kind; no picture is lent to it.
#[test]
fn openings() {
    for (opcodes, kind) in [(deep_size(3, 2), true), (size(3, 2), false)] {
        let bytes = film(&[chunk(&[opcode(0x0F, 0, &[1, 2, 3]), opcodes, send()])]);
        let (mut palette, mut place) = (vec![0; 768], 5);
        let state = begin(&bytes, NO_STREAM, &mut palette, &mut place).expect("a size");
        assert_eq!((state.columns, state.rows, state.true_colour, place), (3, 2, kind, 0));
    }
}

/// The listing program lends no words: the size has its line, then comes 8, where the state is.
#[test]
fn listings() {
    let bytes = film(&[chunk(&[deep_size(1, 1), send()])]);
    assert_eq!(list(&bytes), "at type version length\n30 5 2 8\nrefused 8 42\n");
    // Also where the size is the last opcode: 8 comes before "ended".
    let bytes = film(&[chunk(&[deep_size(1, 1)])]);
    assert_eq!(list(&bytes), "at type version length\n30 5 2 8\nrefused 8 42\n");
    // 129x128 pixels are too many for it: that comes first.
    let bytes = film(&[chunk(&[deep_size(80, 60), send()])]);
    assert_eq!(list(&bytes), "at type version length\n30 5 2 8\ntoo large\n");
}

/// Scratched films and stripped ones: an 11 needs 14 bytes in every film, and nothing else is tested.
#[test]
fn other_calls() {
    for length in [13, 14, 15, 16] {
        let opcodes = [deep_size(1, 1), opcode(0x11, 0, &vec![0; length])];
        let bytes = film(&[chunk(&opcodes), chunk(&[opcode(0x00, 0, &[])])]);
        let saved = salvage(&bytes, usize::MAX, usize::MAX).expect("a good header");
        let left_out: Vec<u8> = saved.left_out.iter().map(|chunk| chunk.number).collect();
        assert_eq!(left_out, if length < 14 { vec![5] } else { vec![] });
        let stripped = strip(&bytes, NO_STREAM, usize::MAX);
        let same = if length < 14 { Err(Refusal { number: 5, block: 0 }) } else { Ok(bytes) };
        assert_eq!(stripped, same);
    }
}

fn memory(lent: &Lent) -> Memory {
    let (palette, words) = (lent.palette.clone(), lent.words.clone());
    Memory { palette, pictures: [lent.a.clone(), lent.b.clone()], words, place: lent.place }
}

/// The stores of a drawing, on the picture behind front, from the place on.
#[test]
fn stores_of_a_drawing() {
    let opcodes = [deep_size(2, 1), opcode(0x0F, 0, &[0xE1]), video(&parted(&[7, 0x80], &[]))];
    let (film, state, mut lent) = walked(&opcodes, 128, 3);
    let state = State { front: 2, ..state };
    lent.words[1] = (0..128).map(|i| 0x8100 + i).collect();
    let list = listed(CallForm::Default, &film, &state, &memory(&lent));
    assert_eq!((list.len(), list[64], list[129]), (130, Store::Place(1), Store::Place(2)));
    // Code 1 copies the oldest picture, which is the second one behind front.
    assert_eq!(list[0], Store::Word { picture: 0, index: 0, value: 0x0100 });
    assert_eq!(list[63], Store::Word { picture: 0, index: 119, value: 0x0177 });
    assert_eq!(list[65], Store::Word { picture: 0, index: 8, value: 7 });
    for allowed in [0, 1, 64, 65, 66, 129, 130] {
        let mut left = lent.clone();
        let stepped = left.step(&film, state, allowed);
        assert_eq!(memory(&left), memory(&lent).cut(&list, allowed));
        match allowed {
            130 => assert!(matches!(stepped, Stepped::Whole(_, 130, ROW))),
            _ => assert_eq!(stepped, Stepped::Unfinished(state, allowed, ROW)),
        }
        let rest = listed(CallForm::Default, &film, &state, &memory(&left));
        assert_eq!(rest, list[65 * left.place..]);
    }
}

/// A film of three frames, cut at every store of every step: it sends the same pictures.
#[test]
fn films_through_cuts() {
    let copy = [opcode(0x0F, 0, &[0x03]), video(&parted(&[], &[]))].concat();
    let opcodes = [
        deep_size(1, 1),
        opcode(0x0C, 0, &[7, 0, 1, 0, 1, 2, 3]),
        solid(7),
        send(),
        solid(8),
        send(),
        // Code 1, the picture before the 8: the 7.
        [opcode(0x0F, 0, &[0x01]), video(&[2, 0])].concat(),
        opcode(0x0B, 0, &[7, 1, 1, 7, 2, 1]),
        send(),
        copy,
    ];
    let bytes = film(&[chunk(&opcodes)]);
    let state = open(&bytes, NO_STREAM).expect("a good header");
    let case = Film { bytes: &bytes, form: CallForm::Strict, state, room: 0 };
    let found = Lent { place: 5, ..Lent::zero_words(64) };
    let mut first = vec![0; 768];
    first[21..24].copy_from_slice(&[1, 2, 3]);
    let mut second = first.clone();
    second[21..27].copy_from_slice(&[0, 0, 0, 63, 0, 0]);
    let sent = |colour, palette: &[u8]| Sent {
        picture: Vec::new(),
        words: vec![colour; 64],
        palette: palette.to_vec(),
    };
    let expected = vec![sent(7, &first), sent(8, &first), sent(7, &second)];
    for played in [
        cuts::play(&case, memory(&found), |_, _| None),
        cuts::play(&case, memory(&found), at_every_store()),
    ] {
        assert_eq!(played.sent, expected);
        // The last frame has no byte for its offset.
        assert_eq!(played.refusal, Some(Refusal { number: 13, block: 0 }));
    }
}
