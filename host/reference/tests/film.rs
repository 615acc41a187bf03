//! Opening, stepping and the shown picture: 01's rules for films, the refusals 1 to 11 and 16 met
//! there, and the points that 01 leaves to reading. No stream of sound is chosen here.

mod common;

use common::{chunk, film, hex, opcode, send, size, video, Lent};
use reference::film::{self as films, chunk_head, opcode_head, shown, Span, State, Stepped};
use reference::sound::{Sound, NO_STREAM};
use reference::{Refusal, Rows};

fn open(film: &[u8]) -> Result<State, Refusal> {
    films::open(film, NO_STREAM)
}

/// The only row of a frame of one block.
const ROW: Option<Rows> = Some(Rows { first: 0, last: 0 });

fn refused(number: u8) -> Stepped {
    Stepped::Refused(Refusal { number, block: 0 })
}

/// Steps into the only chunk of a film made of these opcodes, then takes one step.
fn first_opcode(opcodes: &[Vec<u8>]) -> Stepped {
    let film = film(&[chunk(opcodes)]);
    let mut lent = Lent::zero(64);
    let state = lent.steps(&film, open(&film).expect("a good header"), 1);
    lent.step(&film, state, 312_000)
}

fn is_taken(stepped: Stepped) -> bool {
    matches!(stepped, Stepped::Taken(..))
}

/// A film with one frame of one solid block, unsent.
fn one_frame() -> Vec<u8> {
    film(&[chunk(&[size(1, 1), opcode(0x0F, 0, &[0x0E]), video(&[7])])])
}

// --- opening ---

#[test]
fn number_1_header() {
    let good = common::header();
    let opened = State {
        position: 26,
        chunk_end: 26,
        columns: 0,
        rows: 0,
        true_colour: false,
        front: 0,
        map: None,
        unsent: false,
        sound: Sound::new(NO_STREAM),
    };
    assert_eq!(open(&good), Ok(opened));
    assert_eq!(open(&one_frame()), Ok(opened));
    let wrong = Err(Refusal { number: 1, block: 0 });
    for length in 0..26 {
        assert_eq!(open(&good[..length]), wrong);
        let mut changed = good.clone();
        changed[length] ^= 0x40;
        assert_eq!(open(&changed), wrong, "byte {length}");
    }
}

// --- chunks ---

#[test]
fn chunk_heads() {
    let film = film(&[chunk(&[opcode(0x04, 0, &[])]), hex("00 00 05 00")]);
    let head = chunk_head(&film, 26).expect("a chunk");
    let body = Span { start: 30, length: 4 };
    assert_eq!((head.kind, head.body), (3, body));
    // An empty chunk at the very end.
    let head = chunk_head(&film, 34).expect("a chunk");
    let body = Span { start: 38, length: 0 };
    assert_eq!((head.kind, head.body), (5, body));
    let refused = Err(Refusal { number: 2, block: 0 });
    for position in [35, 38, 39, usize::MAX] {
        assert_eq!(chunk_head(&film, position), refused, "{position}");
    }
    assert_eq!(chunk_head(&film[..33], 26), refused);
}

/// 2: a chunk one byte too long, and each incomplete head.
#[test]
fn number_2_chunk() {
    let good = film(&[chunk(&[opcode(0x04, 0, &[])])]);
    let opened = open(&good).expect("a good header");
    for length in 27..good.len() {
        let mut lent = Lent::zero(0);
        assert_eq!(lent.step(&good[..length], opened, 0), refused(2), "{length}");
    }
    assert!(is_taken(Lent::zero(0).step(&good, opened, 0)));
}

/// A chunk may be empty; its end is then the next head.
#[test]
fn empty_chunks() {
    let film = film(&[chunk(&[]), chunk(&[]), chunk(&[opcode(0x04, 0, &[])])]);
    let (state, refusal) = Lent::zero(0).run(&film);
    assert_eq!((state.position, refusal), (film.len(), None));
}

// --- opcodes ---

/// 3: what passes the chunk, and bytes too few for a head. The chunk's end counts, not the film's.
#[test]
fn number_3_opcode() {
    let zeros = opcode(0x04, 0, &[0; 8]);
    for length in 1..zeros.len() {
        let film = film(&[chunk(&[zeros[..length].to_vec()]), vec![0; 100]]);
        let mut lent = Lent::zero(0);
        let state = lent.steps(&film, open(&film).expect("a good header"), 1);
        assert_eq!(lent.step(&film, state, 0), refused(3), "{length}");
    }
    // An unknown type that passes its chunk: 3 comes before 4.
    assert_eq!(first_opcode(&[hex("01 00 ff ff")]), refused(3));
}

/// 3: bytes of the chunk behind 00 or 01, also where type, version or body are wrong besides.
#[test]
fn number_3_bytes_after_the_end() {
    for kind in [0x00, 0x01] {
        assert!(is_taken(first_opcode(&[opcode(kind, 0, &[])])));
        assert_eq!(first_opcode(&[opcode(kind, 0, &[]), vec![0]]), refused(3));
        let end = opcode(kind, 0, &[]);
        assert_eq!(first_opcode(&[end.clone(), end]), refused(3));
        assert_eq!(first_opcode(&[opcode(kind, 9, &[1]), vec![0]]), refused(3));
    }
}

#[test]
fn opcode_heads() {
    let film = film(&[chunk(&[opcode(0x77, 9, &[1, 2]), opcode(0x01, 3, &[])])]);
    let head = opcode_head(&film, 30, 40).expect("an opcode");
    assert_eq!((head.kind, head.version), (0x77, 9));
    assert_eq!(head.body.of(&film), Some(&[1, 2][..]));
    assert_eq!(opcode_head(&film, 36, 40).map(|head| head.kind), Ok(0x01));
    let refused = Err(Refusal { number: 3, block: 0 });
    for (position, chunk_end) in [(30, 35), (37, 40), (40, 40), (40, 30), (36, 41)] {
        assert_eq!(opcode_head(&film, position, chunk_end), refused);
    }
    assert_eq!(opcode_head(&film, usize::MAX, usize::MAX), refused);
}

/// 4: every type and version. Types in hex: the acted ones with their versions, the ones passed
/// over with any, all others refused.
#[test]
fn number_4_type_and_version() {
    for kind in 0..=255 {
        let versions = match kind {
            0x05 => 3,
            0x07 => 2,
            0x00 | 0x01 | 0x0B | 0x0C | 0x0D | 0x0F | 0x11 => 1,
            0x02 | 0x03 | 0x04 | 0x08 | 0x09 | 0x0A | 0x12 | 0x13 | 0x14 | 0x15 => 256,
            _ => 0,
        };
        for version in 0..=255 {
            // A body of 3 bytes is right for none of the acted types but 0F: 5 then.
            let stepped = first_opcode(&[opcode(kind, version, &[0; 3])]);
            let acted = versions < 256 && kind != 0x0F;
            if usize::from(version) >= versions {
                assert_eq!(stepped, refused(4), "type {kind:x} version {version}");
            } else if acted {
                assert_eq!(stepped, refused(5), "type {kind:x} version {version}");
            } else {
                assert!(is_taken(stepped), "type {kind:x} version {version}");
            }
        }
    }
}

/// 5: the lengths of the bodies. What is right may still be refused for another reason.
#[test]
fn number_5_body_length() {
    let right = |kind, version, length| match (kind, version) {
        (0x00 | 0x01, _) => length == 0,
        (0x05, 0) | (0x07, 0) => length == 4,
        (0x05, 1) | (0x07, 1) => length == 6,
        (0x05, 2) => length == 8,
        (0x0B, _) => length == 6,
        // All zero bytes: a count of 0, and 32 empty groups.
        (0x0C, _) => length == 4,
        (0x0D, _) => length == 32,
        (0x11, _) => length >= 14,
        _ => unreachable!(),
    };
    let acted = [
        (0x00, 0),
        (0x01, 0),
        (0x05, 0),
        (0x05, 1),
        (0x05, 2),
        (0x07, 0),
        (0x07, 1),
        (0x0B, 0),
        (0x0C, 0),
        (0x0D, 0),
        (0x11, 0),
    ];
    for (kind, version) in acted {
        for length in 0..40 {
            let stepped = first_opcode(&[opcode(kind, version, &vec![0; length])]);
            let is_5 = stepped == refused(5);
            let expected = !right(kind, version, length);
            assert_eq!(is_5, expected, "type {kind:x} version {version} length {length}");
        }
    }
}

/// Opcodes passed over are not read, whatever their length, and only move the position.
#[test]
fn passed_over() {
    for kind in [0x02, 0x03, 0x04, 0x08, 0x09, 0x0A, 0x12, 0x13, 0x14, 0x15] {
        for length in [0, 1, 17, 60_000] {
            let film = film(&[chunk(&[opcode(kind, 0xEE, &vec![0xFF; length])])]);
            let mut lent = Lent::zero(64);
            let before = lent.clone();
            let entered = lent.steps(&film, open(&film).expect("a good header"), 1);
            let after = State { position: 34 + length, ..entered };
            assert_eq!(lent.step(&film, entered, 0), Stepped::Taken(after, 0, 0));
            assert_eq!(lent, before);
        }
    }
}

// --- 00 and 01 ---

/// 00 moves position and chunk end to the film's length, whatever follows its chunk, and keeps the
/// rest; then the film has ended, again and again.
#[test]
fn end_of_stream() {
    let opcodes = [opcode(0x0F, 0, &[0x0E]), opcode(0x00, 0, &[])];
    let film = film(&[chunk(&opcodes), vec![0xFF; 9]]);
    let mut lent = Lent::zero(0);
    let state = lent.steps(&film, open(&film).expect("a good header"), 2);
    let at_end = State { position: film.len(), chunk_end: film.len(), ..state };
    assert_eq!(state.map.map(|map| map.length), Some(1));
    assert_eq!(lent.step(&film, state, 0), Stepped::Taken(at_end, 0, 0));
    assert_eq!(lent.step(&film, at_end, 0), Stepped::Ended(at_end));
    assert_eq!(lent.step(&film, at_end, 0), Stepped::Ended(at_end));
}

/// Without 00 the film ends at a chunk end equal to its length.
#[test]
fn end_of_film() {
    let film = film(&[chunk(&[opcode(0x01, 0, &[])])]);
    let (state, refusal) = Lent::zero(0).run(&film);
    assert_eq!(refusal, None);
    assert_eq!((state.position, state.chunk_end), (34, 34));
    let header = common::header();
    let opened = open(&header).expect("a good header");
    assert_eq!(Lent::zero(0).step(&header, opened, 0), Stepped::Ended(opened));
}

// --- 05 ---

/// The words count blocks. The count word is not read; the true-colour word is in version 2 alone, and is
/// 0 here.
#[test]
fn init_video() {
    for (version, body) in
        [(0, "50 00 3c 00"), (1, "50 00 3c 00 ff ff"), (2, "50 00 3c 00 ff ff 00 00")]
    {
        let Stepped::Taken(state, 0, 0) = first_opcode(&[opcode(0x05, version, &hex(body))]) else {
            panic!("version {version} not taken");
        };
        assert_eq!((state.columns, state.rows, state.true_colour), (80, 60, false));
        // "Our first real film says 80 by 60 and should fill a 640 by 480 picture" (02, W1).
        assert_eq!(state.pixels(), 640 * 480);
    }
}

#[test]
fn number_6_size() {
    for (columns, rows, taken) in [
        (1, 1, true),
        (80, 60, true),
        (80, 1, true),
        (1, 60, true),
        (7, 9, true),
        (0, 0, false),
        (0, 1, false),
        (1, 0, false),
        (81, 1, false),
        (1, 61, false),
        (60, 80, false),
        (640, 480, false),
        (65_535, 1, false),
        (1, 65_535, false),
        // 80 and 60 in the high bytes of the words.
        (0x5000, 0x3C00, false),
    ] {
        let stepped = first_opcode(&[size(columns, rows)]);
        assert_eq!(is_taken(stepped), taken, "{columns}x{rows}");
        assert_eq!(stepped == refused(6), !taken, "{columns}x{rows}");
    }
}

/// A second 05 is refused, even with the same size; its length is tested before that.
#[test]
fn number_6_second_size() {
    let twice = film(&[chunk(&[size(1, 1), size(1, 1)])]);
    let (state, refusal) = Lent::zero(64).run(&twice);
    assert_eq!(refusal.map(|refusal| refusal.number), Some(6));
    assert_eq!(state.position, 38);
    let wrong_length = film(&[chunk(&[size(1, 1), opcode(0x05, 1, &[0; 4])])]);
    let (_, refusal) = Lent::zero(64).run(&wrong_length);
    assert_eq!(refusal.map(|refusal| refusal.number), Some(5));
}

// --- palette ---

#[test]
fn number_7_palette() {
    for (kind, body) in [
        (0x0B, vec![255, 2, 2, 0, 0, 0]),
        (0x0C, vec![0, 0, 1, 0, 64, 0, 0]),
        (0x0D, [vec![1, 64, 0, 0], vec![0; 31]].concat()),
    ] {
        assert_eq!(first_opcode(&[opcode(kind, 0, &body)]), refused(7), "{kind:x}");
    }
}

#[test]
fn palettes_are_kept() {
    let opcodes = [
        opcode(0x0B, 0, &[0, 2, 1, 0, 0, 0]),
        opcode(0x0C, 0, &[1, 0, 1, 0, 7, 8, 9]),
        opcode(0x0D, 0, &[vec![0x04, 10, 11, 12], vec![0; 31]].concat()),
    ];
    let mut lent = Lent::zero(0);
    let (_, refusal) = lent.run(&film(&[chunk(&opcodes)]));
    assert_eq!(refusal, None);
    // 0B made entries 0 and 1 (red 0 and 63), 0C changed 1, 0D made 2.
    assert_eq!(lent.palette[..9], [0, 0, 0, 7, 8, 9, 10, 11, 12]);
    assert_eq!(lent.palette[9..], [0; 759]);
}

// --- 8: what is lent ---

/// The palette is tested at every step: at a chunk head, at an opcode, at the end.
#[test]
fn number_8_palette() {
    let film = one_frame();
    let opened = open(&film).expect("a good header");
    let mut lent = Lent::zero(64);
    let entered = lent.steps(&film, opened, 1);
    let (ended, _) = lent.run(&film);
    for length in [0, 767, 769] {
        lent.palette = vec![0; length];
        for state in [opened, entered, ended] {
            assert_eq!(lent.step(&film, state, 312_000), refused(8), "{length}");
        }
    }
}

/// Both pictures are tested at every step once a size is known. A 05 that is larger than the
/// pictures is itself taken.
#[test]
fn number_8_pictures() {
    let film = film(&[chunk(&[size(2, 1), opcode(0x04, 0, &[])])]);
    for (a, b, taken) in [(128, 128, true), (127, 128, false), (128, 127, false), (0, 0, false)] {
        let mut lent = Lent::zero(0);
        (lent.a, lent.b) = (vec![0; a], vec![0; b]);
        let state = lent.steps(&film, open(&film).expect("a good header"), 2);
        assert_eq!((state.columns, state.rows), (2, 1));
        let stepped = lent.step(&film, state, 0);
        assert_eq!(is_taken(stepped), taken, "{a} and {b}");
        assert_eq!(stepped == refused(8), !taken, "{a} and {b}");
    }
}

// --- 0F, 11, 07 ---

/// 0F: the body becomes the map and the place 0, over an unfinished drawing and before 05, too.
#[test]
fn set_map() {
    let film = film(&[chunk(&[opcode(0x0F, 0, &hex("aa bb cc"))])]);
    let mut lent = Lent::zero(0);
    lent.place = 5;
    let entered = lent.steps(&film, open(&film).expect("a good header"), 1);
    let map = Span { start: 34, length: 3 };
    let after = State { position: 37, map: Some(map), ..entered };
    assert_eq!(lent.step(&film, entered, 1), Stepped::Taken(after, 1, 0));
    assert_eq!(map.of(&film), Some(&hex("aa bb cc")[..]));
    assert_eq!(lent.place, 0);
}

#[test]
fn number_9_without_size_or_map() {
    let map = opcode(0x0F, 0, &[0x0E]);
    for (opcodes, number) in [
        (vec![video(&[7])], Some(9)),
        (vec![map.clone(), video(&[7])], Some(9)),
        (vec![size(1, 1), video(&[7])], Some(9)),
        (vec![map.clone(), size(1, 1), video(&[7])], None),
        // The first frame used the map up.
        (vec![size(1, 1), map.clone(), video(&[7]), video(&[7])], Some(9)),
        // 5 comes before 9.
        (vec![opcode(0x11, 0, &[0; 13])], Some(5)),
    ] {
        let (_, refusal) = Lent::zero(64).run(&film(&[chunk(&opcodes)]));
        assert_eq!(refusal.map(|refusal| refusal.number), number);
    }
}

/// 10 to 15 come from the drawing, with their blocks; an empty map is a map of length 0.
#[test]
fn numbers_10_to_15() {
    for (map, packet, number, block) in [
        (&[][..], &[][..], 10, 0),
        (&[0xEE, 0xEE], &[1, 2], 10, 0),
        (&[0x6E], &[1], 12, 1),
        (&[0xEE], &[1], 13, 1),
        (&[0x5E], &[1, 0x01, 0], 14, 1),
        (&[0xEE], &[1, 2, 3, 4], 15, 0),
    ] {
        let opcodes = [size(2, 1), opcode(0x0F, 0, map), video(packet)];
        let mut lent = Lent::zero(128);
        let (state, refusal) = lent.run(&film(&[chunk(&opcodes)]));
        assert_eq!(refusal, Some(Refusal { number, block }));
        assert_eq!(lent, Lent::zero(128));
        // The state stays at the opcode refused, with its map.
        assert_eq!(state.position, 26 + 4 + 8 + 4 + map.len());
        assert!(state.map.is_some());
    }
}

#[test]
fn number_11_place() {
    let film = one_frame();
    let mut lent = Lent::zero(64);
    let at_video = lent.steps(&film, open(&film).expect("a good header"), 3);
    lent.place = 2;
    let before = lent.clone();
    assert_eq!(lent.step(&film, at_video, 312_000), refused(11));
    assert_eq!(lent, before);
    lent.place = 1;
    let whole = lent.step(&film, at_video, 0);
    assert!(matches!(whole, Stepped::Whole(_, 0, ROW)), "{whole:?}");
    assert_eq!(lent.b, [0; 64]);
}

/// While drawing is unfinished the state stays and place and picture are as drawn; on whole the
/// map is used up and the frame is finished. The back picture is the second one at first.
#[test]
fn drawing_in_pieces() {
    let film = one_frame();
    let mut lent = Lent::zero(64);
    let at_video = lent.steps(&film, open(&film).expect("a good header"), 3);
    for allowed in [0, 10, 64] {
        let stepped = lent.step(&film, at_video, allowed);
        assert_eq!(stepped, Stepped::Unfinished(at_video, allowed, ROW));
        assert_eq!(lent.b[..allowed], vec![7; allowed]);
        assert!(lent.b[allowed..].iter().all(|&pixel| pixel == 0));
        assert_eq!(lent.place, 0);
    }
    let after = State { position: film.len(), map: None, unsent: true, ..at_video };
    assert_eq!(lent.step(&film, at_video, 65), Stepped::Whole(after, 65, ROW));
    assert_eq!((lent.a, lent.b, lent.place), (vec![0; 64], vec![7; 64], 1));
}

/// 07 exchanges front and back where a frame is finished and unsent, otherwise nothing. Its words
/// are not read.
#[test]
fn send_buffer() {
    let frame = |map: u8, data: &[u8]| [opcode(0x0F, 0, &[map]), video(data)].concat();
    let opcodes = [
        size(1, 1),
        send(), // nothing finished yet: front stays the first picture
        frame(0x0E, &[7]),
        opcode(0x07, 1, &[0xFF; 6]), // sends 7: front is the second picture
        send(),                      // already sent
        frame(0x0E, &[9]),           // on the first picture
        frame(0x00, &[]),            // again on the first picture, copied from the second: 7
        send(),
    ];
    let film = film(&[chunk(&opcodes)]);
    let mut lent = Lent::zero(64);
    let (state, refusal) = lent.run(&film);
    assert_eq!(refusal, None);
    assert_eq!((state.front, state.unsent), (0, false));
    assert_eq!((lent.a, lent.b), (vec![7; 64], vec![7; 64]));

    let roles_after = |steps| {
        let state = Lent::zero(64).steps(&film, open(&film).expect("a good header"), steps);
        (state.front, state.unsent)
    };
    let roles: Vec<(usize, bool)> = (1..=11).map(roles_after).collect();
    // Chunk head, 05, 07, 0F, 11, 07, 07, 0F, 11, 0F, 11; the last 07 is the run above.
    let expected = [
        (0, false),
        (0, false),
        (0, false),
        (0, false),
        (0, true),
        (1, false),
        (1, false),
        (1, false),
        (1, true),
        (1, true),
        (1, true),
    ];
    assert_eq!(roles, expected);
}

/// Steps without a store ignore the number allowed, also a palette that stores nothing (02, W11).
#[test]
fn other_steps_ignore_the_allowance() {
    let opcodes = [
        size(1, 1),
        send(),
        opcode(0x03, 9, &[1, 2, 3]), // no stream is chosen: passed over
        opcode(0x0C, 0, &[0, 0, 0, 0]),
        opcode(0x0D, 0, &[0; 32]),
        opcode(0x0B, 0, &[255, 0, 9, 255, 9, 0]),
        opcode(0x00, 0, &[]),
    ];
    let film = film(&[chunk(&opcodes)]);
    let mut lent = Lent::zero(64);
    let mut state = open(&film).expect("a good header");
    for _ in 0..=opcodes.len() {
        match lent.step(&film, state, 0) {
            Stepped::Taken(after, 0, 0) => state = after,
            other => panic!("{other:?}"),
        }
    }
    assert_eq!(lent, Lent::zero(64));
    assert_eq!(lent.step(&film, state, 0), Stepped::Ended(state));
}

// --- 16 ---

/// A state in the middle of a film, at its last opcode, and that film.
fn middle() -> (Vec<u8>, State) {
    let film = one_frame();
    let opened = open(&film).expect("a good header");
    let state = Lent::zero(64).steps(&film, opened, 3);
    (film, state)
}

#[test]
fn number_16_state() {
    let (film, good) = middle();
    let span = |start, length| Some(Span { start, length });
    let (position, end, max) = (good.position, good.chunk_end, usize::MAX);
    let states = [
        State { position: end + 1, ..good },
        State { position: max, ..good },
        State { chunk_end: position - 1, ..good },
        State { chunk_end: film.len() + 1, ..good },
        State { position: max, chunk_end: max, ..good },
        State { map: span(film.len(), 1), ..good },
        State { map: span(film.len() + 1, 0), ..good },
        State { map: span(0, film.len() + 1), ..good },
        State { map: span(max, max), ..good },
        State { map: span(2, max - 1), ..good },
        State { front: 2, ..good },
        State { front: max, ..good },
        State { columns: 0, ..good },
        State { rows: 0, ..good },
        State { columns: 81, ..good },
        State { rows: 61, ..good },
        State { columns: 640, rows: 480, ..good },
        // 64 pixels, if the product wraps around.
        State { columns: (1 << 58) + 1, ..good },
        State { columns: max, rows: max, ..good },
    ];
    for state in states {
        let mut lent = Lent::zero(64);
        assert_eq!(lent.step(&film, state, 312_000), refused(16), "{state:?}");
        assert_eq!(lent, Lent::zero(64));
        // 16 comes before 8.
        lent.palette.clear();
        assert_eq!(lent.step(&film, state, 312_000), refused(16), "{state:?}");
    }
}

/// What 16 does not list is no such refusal: a position inside the header, an empty map at the
/// very end, a finished frame or a map without a size.
#[test]
fn not_number_16() {
    let (film, good) = middle();
    let states = [
        State { position: 0, ..good },
        State { position: 0, chunk_end: 0, ..good },
        State { map: Some(Span { start: film.len(), length: 0 }), ..good },
        State { columns: 0, rows: 0, ..good },
        State { columns: 0, rows: 0, map: None, unsent: true, ..good },
        State { front: 1, ..good },
    ];
    for state in states {
        let stepped = Lent::zero(64).step(&film, state, 312_000);
        assert_ne!(stepped, refused(16), "{state:?}");
    }
    // "Ended" is answered before anything else is read, but behind 16 and 8.
    let at_end = State { position: film.len(), chunk_end: film.len(), ..good };
    assert_eq!(Lent::zero(64).step(&film, at_end, 0), Stepped::Ended(at_end));
    let no_front = State { front: 2, ..at_end };
    assert_eq!(Lent::zero(64).step(&film, no_front, 0), refused(16));
    assert_eq!(Lent::zero(63).step(&film, at_end, 0), refused(8));
}

// --- the shown picture ---

#[test]
fn shown_picture() {
    let (_, state) = middle();
    let (a, b) = (vec![1; 70], vec![2; 64]);
    assert_eq!(shown(&state, &a, &b), [1; 64]);
    assert_eq!(shown(&State { front: 1, ..state }, &a, &b), [2; 64]);
    let empty: [u8; 0] = [];
    for none in [
        State { front: 2, ..state },
        State { front: usize::MAX, ..state },
        State { columns: 0, rows: 0, ..state },
        State { columns: 0, ..state },
        State { columns: 81, ..state },
        State { rows: 61, ..state },
        State { columns: 2, ..state },
        State { columns: (1 << 58) + 1, ..state },
        State { columns: usize::MAX, rows: usize::MAX, ..state },
    ] {
        assert_eq!(shown(&none, &a, &b), empty, "{none:?}");
    }
    // Only the front picture's length counts.
    assert_eq!(shown(&state, &a, &[]), [1; 64]);
    assert_eq!(shown(&state, &a[..63], &b), empty);
}
