//! The sentences of document 02's W6, in its order, run on the proved library. The expected values are
//! worked out by hand from the documents.

use mve::{
    begin, check, check_strict, draw, draw_strict, step, Drawn, Error, Form, Pictures, Refusal,
    Rows, State, Step, NO_STREAM,
};

fn refused<T>(number: usize, block: usize) -> Result<T, Refusal> {
    Err(Refusal { error: Error::from_number(number).expect("a number of refusal"), block })
}

/// A packet for a row of so many blocks.
#[derive(Clone, Copy)]
struct Packet<'a> {
    columns: usize,
    map: &'a [u8],
    data: &'a [u8],
}

type CheckCall = fn(usize, usize, &[u8], &[u8]) -> Result<Option<Rows>, Refusal>;
type DrawCall =
    fn(usize, usize, &[u8], &[u8], &[u8], &mut [u8], &mut usize, usize) -> Result<Drawn, Refusal>;

/// The calls of one form.
struct Calls {
    check: CheckCall,
    draw: DrawCall,
    form: Form,
}

const DEFAULT: Calls = Calls { check, draw, form: Form::Default };
const STRICT: Calls = Calls { check: check_strict, draw: draw_strict, form: Form::Strict };

/// The rows of a packet for a row of blocks that touches any.
const ROW: Option<Rows> = Some(Rows { first: 0, last: 0 });

/// What a drawing answers, and the picture and the place that it leaves.
type Left = (Result<Drawn, Refusal>, Vec<u8>, usize);

impl Calls {
    /// A drawing of all stores on a back of 5, with a front of 1.
    fn drawn(&self, packet: Packet<'_>) -> Left {
        let Packet { columns, map, data } = packet;
        let (front, mut back, mut place) = (vec![1; 64 * columns], vec![5; 64 * columns], 0);
        let answer = (self.draw)(columns, 1, map, data, &front, &mut back, &mut place, 312_000);
        (answer, back, place)
    }

    /// The same by the opcode 11 of a film. Of the answer's state only the moves are looked at.
    fn stepped(&self, packet: Packet<'_>) -> Left {
        let film = film(packet);
        let pixels = 64 * packet.columns;
        let (mut a, mut b, mut place) = (vec![1; pixels], vec![5; pixels], 0);
        let mut take = |state| {
            let (palette, room) = (&mut [0; 768], &mut []);
            let pictures = &mut Pictures::bytes(&mut a, &mut b);
            step(&film, state, palette, pictures, &mut place, room, 312_000, self.form)
        };
        let sized = begin(&film, NO_STREAM, &mut [0; 768], &mut 0).expect("a size");
        let state = take(sized).expect("0F").state();
        let answer = take(state).map(|step| match step {
            Step::Whole { state: next, stores, rows } => {
                assert_eq!(next, State { position: film.len(), map: None, unsent: true, ..state });
                Drawn::Whole { stores, rows }
            }
            other => panic!("{other:?}"),
        });
        (answer, b, place)
    }

    /// All three calls accept a packet, and draw this: the only row, if any block is not code 1.
    #[track_caller]
    fn accepts(&self, packet: Packet<'_>, picture: &[u8], stores: usize) {
        let Packet { columns, map, data } = packet;
        let rows = if stores > columns { ROW } else { None };
        assert_eq!((self.check)(columns, 1, map, data), Ok(rows), "{data:x?}");
        let whole = (Ok(Drawn::Whole { stores, rows }), picture.to_vec(), columns);
        assert_eq!(self.drawn(packet), whole, "{data:x?}");
        assert_eq!(self.stepped(packet), whole, "{data:x?}");
    }

    /// All three calls refuse a packet so, and change nothing.
    #[track_caller]
    fn refuses(&self, packet: Packet<'_>, number: usize, block: usize) {
        let Packet { columns, map, data } = packet;
        assert_eq!((self.check)(columns, 1, map, data), refused(number, block), "{data:x?}");
        let nothing = (refused(number, block), vec![5; 64 * columns], 0);
        assert_eq!(self.drawn(packet), nothing, "{data:x?}");
        assert_eq!(self.stepped(packet), nothing, "{data:x?}");
    }
}

/// A film of one chunk: 05 with this row of blocks, 0F and 11.
fn film(packet: Packet<'_>) -> Vec<u8> {
    let Packet { columns, map, data } = packet;
    let word = |number: usize| (number as u16).to_le_bytes();
    let opcode = |kind, body: &[u8]| [&word(body.len())[..], &[kind, 0], body].concat();
    let size = opcode(0x05, &[word(columns), word(1)].concat());
    let body = [size, opcode(0x0F, map), opcode(0x11, &[&[0; 14], data].concat())].concat();
    let header = b"Interplay MVE File\x1A\0\x1A\0\0\x01\x33\x11";
    [&header[..], &word(body.len()), &word(3), &body].concat()
}

/// Document 01's case of two blocks, map E2, data 00 07: left half as found, right half 7.
const TWO: Packet<'static> = Packet { columns: 2, map: &[0xE2], data: &[0x00, 0x07] };

/// The picture of that case.
fn two_blocks() -> Vec<u8> {
    [[5; 8], [7; 8]].concat().repeat(8)
}

/// "Half the catalogue pads a packet to an even length [..]: one left-over byte is now accepted by
/// checking, drawing and the film step."
#[test]
fn one_byte_is_accepted() {
    // One data byte, padded to two.
    let solid = |data| Packet { columns: 1, map: &[0x0E], data };
    DEFAULT.accepts(solid(&[7]), &[7; 64], 65);
    DEFAULT.accepts(solid(&[7, 0]), &[7; 64], 65);
    // Nothing asks that the length be even.
    DEFAULT.accepts(Packet { data: &[0x00, 0x07, 0x00], ..TWO }, &two_blocks(), 130);
    // No data at all: code 1 leaves the block, code 0 is that of front.
    DEFAULT.accepts(Packet { columns: 1, map: &[0x01], data: &[0] }, &[5; 64], 1);
    DEFAULT.accepts(Packet { columns: 1, map: &[0x00], data: &[0] }, &[1; 64], 65);
    // The largest frame.
    assert_eq!(check(80, 60, &[0x11; 2400], &[0]), Ok(None));
}

/// A block that lacks a byte is not helped, and a byte that a block has is not one left over.
#[test]
fn short_blocks() {
    DEFAULT.refuses(Packet { columns: 1, map: &[0x0F], data: &[7] }, 13, 0);
    DEFAULT.refuses(Packet { columns: 2, map: &[0xEE], data: &[7] }, 13, 1);
    // Code 7: four bytes if the colours fall, else ten.
    let two_colours = |data| Packet { columns: 1, map: &[0x07], data };
    DEFAULT.accepts(two_colours(&[2, 1, 0, 0, 9]), &[2; 64], 65);
    DEFAULT.refuses(two_colours(&[1, 2, 0, 0, 9]), 13, 0);
}

/// "The mastering desk and W10 call the strict form by name."
#[test]
fn strict_form() {
    let solid = |data| Packet { columns: 1, map: &[0x0E], data };
    STRICT.accepts(solid(&[7]), &[7; 64], 65);
    for over in [&[7, 0][..], &[7, 0, 0], &[7; 300]] {
        STRICT.refuses(solid(over), 15, 0);
    }
    STRICT.accepts(Packet { columns: 1, map: &[0x01], data: &[] }, &[5; 64], 1);
    STRICT.refuses(Packet { columns: 1, map: &[0x01], data: &[0] }, 15, 0);
    assert_eq!(check_strict(80, 60, &[0x11; 2400], &[]), Ok(None));
    assert_eq!(check_strict(80, 60, &[0x11; 2400], &[0]), refused(15, 0));
}

/// Blocks of every code, in each of its forms: code and data, as long as document 01's table says.
/// Colours rise and fall as each form asks; all else is 0. Code 5 copies the block itself, and code 4,
/// too, by 88.
fn last_blocks() -> Vec<(u8, Vec<u8>)> {
    let filled = |bytes: &[u8], length: usize| {
        let mut data = bytes.to_vec();
        data.resize(length, 0);
        data
    };
    let in_halves = |half: usize, pair: [u8; 2]| [&filled(&[2, 1], half)[..], &pair].concat();
    vec![
        (0x0, vec![]),
        (0x1, vec![]),
        (0x4, vec![0x88]),
        (0x5, vec![0, 0]),
        (0x7, filled(&[1, 2], 10)),
        (0x7, filled(&[2, 1], 4)),
        (0x8, filled(&[1, 2], 16)),
        (0x8, filled(&in_halves(6, [1, 2]), 12)),
        (0x8, filled(&in_halves(6, [2, 1]), 12)),
        (0x9, filled(&[1, 2, 1, 2], 20)),
        (0x9, filled(&[1, 2, 2, 1], 8)),
        (0x9, filled(&[2, 1, 1, 2], 12)),
        (0x9, filled(&[2, 1, 2, 1], 12)),
        (0xA, filled(&[1, 2], 32)),
        (0xA, filled(&in_halves(12, [1, 2]), 24)),
        (0xA, filled(&in_halves(12, [2, 1]), 24)),
        (0xB, filled(&[], 64)),
        (0xC, filled(&[], 16)),
        (0xD, filled(&[], 4)),
        (0xE, filled(&[], 1)),
        (0xF, filled(&[], 2)),
    ]
}

/// What every kind of last block leaves over, alone and behind a solid one: 0 bytes to 3, and many. In
/// the default form up to one is accepted, in the strict form none.
#[test]
fn every_last_block() {
    for (code, block) in last_blocks() {
        let (alone, behind) = ([code], [0xE | code << 4]);
        let two = [&[9][..], &block].concat();
        for (columns, map, blocks) in [(1, &alone, &block), (2, &behind, &two)] {
            for (over, most) in [0, 1, 2, 3, 500].into_iter().flat_map(|n| [(n, 1), (n, 0)]) {
                let data = [&blocks[..], &vec![3; over]].concat();
                let form = if most == 1 { DEFAULT } else { STRICT };
                let expected = if over <= most { Ok(()) } else { refused(15, 0) };
                let packet = Packet { columns, map, data: &data };
                let answers = [
                    (form.check)(columns, 1, map, &data).map(|_| ()),
                    form.drawn(packet).0.map(|_| ()),
                    form.stepped(packet).0.map(|_| ()),
                ];
                assert_eq!(answers, [expected; 3], "code {code:X}, {over} over, {most} may be");
            }
        }
    }
}

/// Codes 2 and 3, which copy from other blocks. Code 3 copies the left block, by 00; code 2 copies from
/// later blocks, of which the last one has none, so it is refused 14 whatever is left over.
#[test]
fn last_blocks_copied_from_back() {
    let copied = |code: u8, over: usize| {
        let data = [&[9, 0][..], &vec![3; over]].concat();
        let map = [0xE | code << 4];
        (check(2, 1, &map, &data), check_strict(2, 1, &map, &data))
    };
    assert_eq!(copied(0x3, 0), (Ok(ROW), Ok(ROW)));
    assert_eq!(copied(0x3, 1), (Ok(ROW), refused(15, 0)));
    assert_eq!(copied(0x3, 2), (refused(15, 0), refused(15, 0)));
    DEFAULT.accepts(Packet { columns: 2, map: &[0x3E], data: &[9, 0, 3] }, &[9; 128], 130);
    for over in 0..4 {
        assert_eq!(copied(0x2, over), (refused(14, 1), refused(14, 1)), "{over} bytes over");
    }
}

/// "The two agree on every packet with nothing left over", refused ones among them.
#[test]
fn forms_agree() {
    for form in [DEFAULT, STRICT] {
        form.accepts(TWO, &two_blocks(), 130);
        assert_eq!((form.check)(81, 1, &[0x11; 41], &[]), refused(6, 0));
        for (map, data, number, block) in [
            (&[][..], &[][..], 10, 0),
            (&[0x6E], &[7], 12, 1),
            (&[0xEE], &[7], 13, 1),
            (&[0x5E], &[7, 1, 0], 14, 1),
        ] {
            form.refuses(Packet { columns: 2, map, data }, number, block);
        }
    }
}

/// The byte left over does not show, whatever it is.
#[test]
fn the_byte_is_not_read() {
    for odd in 0..=255 {
        let padded = [0x00, 0x07, odd];
        DEFAULT.accepts(Packet { data: &padded, ..TWO }, &two_blocks(), 130);
    }
}

/// "Demands 2 and 3 read the default": document 01's case after 75 stores, with a byte left over. A
/// strict call between is refused and changes nothing; the drawing then goes on.
#[test]
fn stops() {
    let (map, padded, front) = ([0xE2], [0x00, 0x07, 0xAA], [1; 128]);
    let (mut back, mut place) = ([5; 128], 0);
    let answer = draw(2, 1, &map, &padded, &front, &mut back, &mut place, 75);
    assert_eq!((answer, place), (Ok(Drawn::Unfinished { stores: 75, rows: ROW }), 1));
    assert_eq!(back[..16], two_blocks()[..16]);
    assert_eq!(back[16..32], [5, 5, 5, 5, 5, 5, 5, 5, 7, 7, 5, 5, 5, 5, 5, 5]);
    assert_eq!(back[32..], [5; 96]);

    let left = back;
    let strict = draw_strict(2, 1, &map, &padded, &front, &mut back, &mut place, 75);
    assert_eq!((strict, back, place), (refused(15, 0), left, 1));

    let answer = draw(2, 1, &map, &padded, &front, &mut back, &mut place, 75);
    assert_eq!((answer, place), (Ok(Drawn::Whole { stores: 65, rows: ROW }), 2));
    assert_eq!(back[..], two_blocks());
    // The frame is finished, and the packet is still judged.
    let strict = draw_strict(2, 1, &map, &padded, &front, &mut back, &mut place, 0);
    assert_eq!((strict, place), (refused(15, 0), 2));
}

/// "15 in the default means two or more bytes left."
#[test]
fn two_bytes_are_refused() {
    let solid = |data| Packet { columns: 1, map: &[0x0E], data };
    for over in [&[7, 0, 0][..], &[7, 7, 7, 7], &[0; 500]] {
        DEFAULT.refuses(solid(over), 15, 0);
    }
    DEFAULT.refuses(Packet { columns: 1, map: &[0x01], data: &[0, 0] }, 15, 0);
    assert_eq!(check(1, 1, &[0x01], &vec![0; 70_000]), refused(15, 0));
}

/// 15 is the last in the order, in both forms: each of these packets leaves bytes over, too, or would,
/// were its other fault mended.
#[test]
fn order() {
    for form in [DEFAULT, STRICT] {
        for (map, data, number, block) in [
            (&[0xEE, 0xEE][..], &[7, 7, 9, 9][..], 10, 0),
            (&[0x6E], &[7, 9, 9], 12, 1),
            (&[0xBE], &[7, 9, 9], 13, 1),
            (&[0x5E], &[7, 1, 0, 9, 9], 14, 1),
            (&[0x5E], &[7, 1, 0, 9], 14, 1),
        ] {
            form.refuses(Packet { columns: 2, map, data }, number, block);
        }
        // The size, short pictures and a place above the block count come before it.
        let with = |columns, pixels: usize, mut place| {
            let (front, mut back) = (vec![1; pixels], vec![5; pixels]);
            (form.draw)(columns, 1, &[0x0E], &[7, 9, 9], &front, &mut back, &mut place, 65)
        };
        assert_eq!(with(0, 64, 0), refused(6, 0));
        assert_eq!(with(1, 63, 0), refused(8, 0));
        assert_eq!(with(1, 64, 2), refused(11, 0));
        assert_eq!(with(1, 64, 1), refused(15, 0));
    }
}
