//! Packets of films with true colour (02, W7): their two parts, the refusals of checking and drawing with
//! their order, the stores of a call, and the book of demand 3. Expected values are worked out by hand from
//! the documents.

mod common;

use common::{parted, word};
use reference::book::{Book, WordCall};
use reference::word_packet::{words_left_over, Left};
use reference::{check_words, check_words_as, draw_words, draw_words_as};
use reference::{CallForm, Drawn, Refusal, Rows};

fn refused<T>(number: u8, block: usize) -> Result<T, Refusal> {
    Err(Refusal { number, block })
}

/// 20: fewer than two bytes, an offset below 2, one past the packet's end. One that is equal to the
/// packet's length leaves the second part empty.
#[test]
fn number_20_parts() {
    for form in CallForm::ALL {
        // One block of code 0, which needs no data.
        let check = |packet: &[u8]| check_words_as(form, 1, 1, &[0x0], packet).map(|_| ());
        for packet in [&[][..], &[0], &[2], &[0xFF]] {
            assert_eq!(check(packet), refused(20, 0), "{packet:?}");
        }
        for (offset, answer) in [
            (0, refused(20, 0)),
            (1, refused(20, 0)),
            (2, Ok(())),
            (3, refused(20, 0)),
            (4, refused(20, 0)),
            (0x0200, refused(20, 0)),
            (0xFFFF, refused(20, 0)),
        ] {
            assert_eq!(check(&word(offset)), answer, "{offset}");
        }
        // A solid block: its colour stands in front of an offset of 4, and nowhere else.
        let check = |offset: usize| {
            let packet = [&word(offset)[..], &[7, 0]].concat();
            check_words_as(form, 1, 1, &[0xE], &packet).map(|_| ())
        };
        let answers = [0, 1, 2, 3, 4, 5, 6].map(check);
        let (parts, short) = (refused(20, 0), refused(13, 0));
        assert_eq!(answers, [parts, parts, short, short, Ok(()), parts, parts]);
    }
    // The offset has two bytes: a second part behind 254 bytes of the first, and of 1,022.
    for blocks in [2, 8] {
        let first = [vec![5; 126 * blocks], vec![5; 2 * blocks]].concat();
        let packet = parted(&first, &[0]);
        assert_eq!(packet[..2], word(2 + 128 * blocks));
        assert_eq!(check_words(blocks, 1, &vec![0xBB; blocks / 2], &packet).map(|_| ()), Ok(()));
    }
}

/// Checking: 6, 10, 20, the blocks, 15. What would be met later does not speak.
#[test]
fn order_of_a_check() {
    // Two blocks, solid and code 5. Each case has the fault named and all that are tested behind it.
    let outside = [7, 0, 1, 0];
    for (columns, map, packet, answer) in [
        (0, &[][..], vec![], refused(6, 0)),
        (81, &[0xEE, 0xEE], vec![], refused(6, 0)),
        (2, &[], vec![], refused(10, 0)),
        (2, &[0x5E, 0x5E], vec![], refused(10, 0)),
        (2, &[0x5E], vec![], refused(20, 0)),
        (2, &[0x5E], [&word(9)[..], &outside].concat(), refused(20, 0)),
        // Block 0 has too little, and 15 for the second part would come later.
        (2, &[0x5E], parted(&[7], &[0; 9]), refused(13, 0)),
        (2, &[0x5E], parted(&[7, 0, 1], &[0; 9]), refused(13, 1)),
        // 14, before the bytes that are left in either part.
        (2, &[0x5E], parted(&outside, &[0; 9]), refused(14, 1)),
        (2, &[0x5E], parted(&[&outside[..], &[0]].concat(), &[]), refused(14, 1)),
        (2, &[0x5E], parted(&[7, 0, 0, 0, 0], &[]), refused(15, 0)),
        (2, &[0x5E], parted(&[7, 0, 0, 0], &[0, 0]), refused(15, 0)),
        (2, &[0x5E], parted(&[7, 0, 0, 0], &[0]), Ok(Rows { first: 0, last: 0 })),
        // 14 in block 0 comes before 13 in block 1, and 13 in block 0 before 14 in block 1.
        (2, &[0xE5], parted(&[9, 0], &[]), refused(14, 0)),
        (2, &[0x52], parted(&outside[2..], &[]), refused(13, 0)),
        (2, &[0x45], parted(&[0, 0], &[]), refused(13, 1)),
        (2, &[0x45], parted(&[0, 0], &[0x89]), refused(14, 1)),
    ] {
        assert_eq!(check_words(columns, 1, map, &packet), answer, "{columns} {map:?} {packet:?}");
    }
}

/// There is no code 6 that is refused: it copies as code 5 does.
#[test]
fn no_number_12() {
    for vector in [[0, 0], [1, 0], [0xFF, 0], [0, 1], [0, 0xFF]] {
        let answer = if vector == [0, 0] { Ok(Rows { first: 0, last: 0 }) } else { refused(14, 0) };
        for code in [0x5, 0x6] {
            assert_eq!(check_words(1, 1, &[code], &parted(&vector, &[])), answer);
        }
    }
}

/// 14: each copying code past each edge, by a pixel.
#[test]
fn number_14_outside() {
    // 3x3 blocks, the one in the middle copied: 8 pixels are in reach on every side.
    let map = |code: u8| [0x00, 0x00, code, 0x00, 0x00];
    let check = |code: u8, first: &[u8], second: &[u8]| {
        check_words(3, 3, &map(code), &parted(first, second)).map(|_| ())
    };
    for code in [0x5, 0x6] {
        for (vector, inside) in [
            ([8, 8], true),
            ([0xF8, 0xF8], true),
            ([9, 0], false),
            ([0xF7, 0], false),
            ([0, 9], false),
            ([0, 0xF7], false),
            // By a linear address this would be inside: past the right edge, a line up.
            ([9, 0xFF], false),
        ] {
            let answer = if inside { Ok(()) } else { refused(14, 4) };
            assert_eq!(check(code, &vector, &[]), answer, "{code} {vector:?}");
        }
    }
    // Code 2: 1 is (9, 0), 56 is (-14, 8), 57 + 28 is (-14, 9), 56 + 6 is (-8, 8).
    for (byte, inside) in [(0, true), (1, false), (56, false), (85, false), (62, true)] {
        for code in [0x2, 0x3] {
            let answer = if inside { Ok(()) } else { refused(14, 4) };
            assert_eq!(check(code, &[], &[byte]), answer, "{code} {byte}");
        }
    }
    // Code 4 goes 8 to the left and up, 7 to the right and down: from the middle it is always inside.
    for byte in [0x00, 0x0F, 0xF0, 0xFF] {
        assert_eq!(check(0x4, &[], &[byte]), Ok(()));
        let alone = check_words(1, 1, &[0x4], &parted(&[], &[byte]));
        assert_eq!(alone, refused(14, 0));
    }
}

/// What is left over of both parts, told apart.
#[test]
fn left_over() {
    let left = |first: &[u8], second: &[u8]| words_left_over(1, 1, &[0xE], &parted(first, second));
    assert_eq!(left(&[7, 0], &[]), Ok(Left { first: 0, second: 0 }));
    assert_eq!(left(&[7, 0, 1], &[]), Ok(Left { first: 1, second: 0 }));
    assert_eq!(left(&[7, 0], &[1, 2, 3]), Ok(Left { first: 0, second: 3 }));
    assert_eq!(left(&[7], &[1, 2, 3]), refused(13, 0));
}

/// A frame of one row and of several: every row is touched, also by code 1 alone and by code 0 alone.
#[test]
fn rows_touched() {
    for rows in [1, 2, 7, 60] {
        for code in [0x00, 0x11, 0xFF] {
            let map = vec![code; rows];
            let packet = parted(&[], &[]);
            let all = Rows { first: 0, last: rows - 1 };
            assert_eq!(check_words(2, rows, &map, &packet), Ok(all));
            let pixels = 128 * rows;
            let (last, oldest) = (vec![1; pixels], vec![2; pixels]);
            for (place, allowed) in [(0, 0), (0, 5), (0, usize::MAX), (2 * rows, 9)] {
                let (mut new, mut after) = (vec![3; pixels], place);
                let drawn = draw_words(
                    2, rows, &map, &packet, &last, &oldest, &mut new, &mut after, allowed,
                );
                assert_eq!(drawn.map(|drawn| drawn.rows), Ok(Some(all)));
            }
        }
    }
}

/// Drawing: 6, 8 for any of the three pictures, 10, 11, 20, the blocks, 15. Nothing is changed.
#[test]
fn order_of_a_drawing() {
    let good = parted(&[7, 0, 8, 0], &[]);
    let bad = parted(&[7, 0, 8], &[]);
    // Columns, words of the three pictures, map, packet, place.
    for (columns, lengths, map, packet, place, answer) in [
        (81, [0, 0, 0], &[][..], &[][..], 9, refused(6, 0)),
        (0, [128, 128, 128], &[0xEE], &good, 0, refused(6, 0)),
        (2, [127, 128, 128], &[], &[], 9, refused(8, 0)),
        (2, [128, 127, 128], &[], &[], 9, refused(8, 0)),
        (2, [128, 128, 127], &[], &[], 9, refused(8, 0)),
        (2, [128, 128, 128], &[], &[], 9, refused(10, 0)),
        (2, [128, 128, 128], &[0xEE], &[], 3, refused(11, 0)),
        (2, [128, 128, 128], &[0xEE], &[], 2, refused(20, 0)),
        (2, [128, 128, 128], &[0xEE], &[1], 0, refused(20, 0)),
        (2, [128, 128, 128], &[0xEE], &bad, 2, refused(13, 1)),
        (2, [128, 128, 128], &[0x5E], &parted(&[7, 0, 1, 0, 9], &[]), 2, refused(14, 1)),
        (2, [128, 128, 128], &[0x0E], &good, 0, refused(15, 0)),
        (2, [128, 128, 128], &[0xEE], &good, 2, Ok((true, 0))),
        (2, [129, 200, 128], &[0xEE], &good, 0, Ok((true, 130))),
    ] {
        for form in CallForm::ALL {
            let [last, oldest, found] = [(1, 0), (2, 1), (3, 2)].map(|(value, at)| {
                let value: u16 = value;
                vec![value; lengths[at]]
            });
            let (mut new, mut after) = (found.clone(), place);
            let drawn = draw_words_as(
                form, columns, 1, map, packet, &last, &oldest, &mut new, &mut after, 312_000,
            );
            let told = drawn.map(|drawn| (drawn.whole, drawn.stores));
            assert_eq!(told, answer, "{columns} {lengths:?} {map:?} {packet:?} {place}");
            if answer != Ok((true, 130)) {
                assert_eq!((new, after), (found, place));
            }
        }
    }
}

/// The odd byte is that of the second part, and the strict form takes none.
#[test]
fn odd_byte() {
    let draw = |form, first: &[u8], second: &[u8]| {
        let (last, oldest, mut new, mut place) = ([1; 64], [2; 64], [3; 64], 0);
        let packet = parted(first, second);
        let drawn = draw_words_as(
            form,
            1,
            1,
            &[0xE],
            &packet,
            &last,
            &oldest,
            &mut new,
            &mut place,
            312_000,
        );
        (drawn.map(|drawn| drawn.stores), new[0], place)
    };
    let (default, strict) = (CallForm::Default, CallForm::Strict);
    for form in CallForm::ALL {
        assert_eq!(draw(form, &[7, 0], &[]), (Ok(65), 7, 1));
        assert_eq!(draw(form, &[7, 0, 9], &[]), (refused(15, 0), 3, 0));
        assert_eq!(draw(form, &[7, 0], &[9, 9]), (refused(15, 0), 3, 0));
        assert_eq!(draw(form, &[7, 0, 9], &[9]), (refused(15, 0), 3, 0));
    }
    assert_eq!(draw(default, &[7, 0], &[9]), (Ok(65), 7, 1));
    assert_eq!(draw(strict, &[7, 0], &[9]), (refused(15, 0), 3, 0));
}

/// Allowed n, a call makes the first n stores: 65 for every block, a word being one, then the place. Two
/// blocks: code 1, which copies the oldest picture, and a raw one.
#[test]
fn first_stores() {
    let raw: Vec<u8> = (100..164_u16).flat_map(u16::to_le_bytes).collect();
    let packet = parted(&raw, &[]);
    let last = [0x8001; 128];
    let oldest: Vec<u16> = (0..128).map(|i| 0x9000 + i).collect();
    // Each pixel by its place in the list: pixel i of the left block is i % 8, i / 8, of the right one 8
    // further.
    let index = |store: usize| store % 8 + store / 8 * 16;
    for allowed in (0..=131).chain([312_000, usize::MAX]) {
        let (mut new, mut place) = ([0xFFFF; 128], 0);
        let drawn =
            draw_words(2, 1, &[0xB1], &packet, &last, &oldest, &mut new, &mut place, allowed);
        let made = allowed.min(130);
        let rows = Some(Rows { first: 0, last: 0 });
        assert_eq!(drawn, Ok(Drawn { whole: made == 130, stores: made, rows }));
        assert_eq!(place, made / 65);
        let mut expected = [0xFFFF; 128];
        for store in 0..made.min(64) {
            // Pixel i of the oldest picture without its high bit.
            expected[index(store)] = 0x1000 + index(store) as u16;
        }
        for store in 0..made.saturating_sub(65).min(64) {
            expected[8 + index(store)] = 100 + store as u16;
        }
        assert_eq!(new, expected, "{allowed}");
    }
}

/// The largest frame has 312,000 stores whatever its codes.
#[test]
fn store_counts() {
    let pixels = 64 * 80 * 60;
    let (last, oldest) = (vec![0x8001; pixels], vec![0x8002; pixels]);
    for (code, value) in [(0x00, 1), (0x11, 2), (0xFF, 2)] {
        let (mut new, mut place) = (vec![3; pixels], 0);
        let map = vec![code; 2400];
        let drawn =
            draw_words(80, 60, &map, &[2, 0], &last, &oldest, &mut new, &mut place, usize::MAX);
        assert_eq!(drawn.map(|drawn| drawn.stores), Ok(312_000));
        assert!(new.iter().all(|&pixel| pixel == value));
    }
}

/// Words of a lent picture beyond the size are never touched, and the older pictures not at all.
#[test]
fn only_the_frame_is_drawn_on() {
    let (last, oldest, mut new, mut place) = ([1; 100], [2; 100], [3; 100], 0);
    draw_words(1, 1, &[0x1], &[2, 0], &last, &oldest, &mut new, &mut place, 312_000)
        .expect("accepted");
    assert_eq!(new[..64], [2; 64]);
    assert_eq!(new[64..], [3; 36]);
    assert_eq!((last, oldest), ([1; 100], [2; 100]));
}

/// The book: three blocks, code 3 from the left in the last two. It is worked out from the picture found,
/// so that a call that begins again in block 1 gives it the same pixels.
#[test]
fn book() {
    let (last, oldest) = ([0x8001; 192], [0x8002; 192]);
    // Block 0 is code 6 with no way, block 1 copies it, block 2 copies 14 to the left: six pixels a row of
    // block 0 and two of block 1.
    let packet = parted(&[0, 0], &[0, 6, 9]);
    let call = |form, allowed| WordCall {
        form,
        columns: 3,
        rows: 1,
        map: &[0x36, 0x03],
        packet: &packet,
        last: &last,
        oldest: &oldest,
        allowed,
    };
    let drawn = |whole, stores| Ok(Drawn { whole, stores, rows: Some(Rows { first: 0, last: 0 }) });
    let mut book = Book::open(&[0xFFFF; 192]);
    for (allowed, answer, place) in [
        (0, drawn(false, 0), 0),
        (64, drawn(false, 64), 0),
        (65 + 30, drawn(false, 95), 1),
        (64, drawn(false, 64), 1),
        (66, drawn(false, 66), 2),
        (312_000, drawn(true, 65), 3),
        (312_000, drawn(true, 0), 3),
    ] {
        assert_eq!(book.enter_words(&call(CallForm::Default, allowed)), answer, "{allowed}");
        assert_eq!(book.place(), place);
        // The byte that is left over is refused in between, and leaves all.
        assert_eq!(book.enter_words(&call(CallForm::Strict, allowed)), refused(15, 0));
        assert_eq!(book.place(), place);
    }
    assert_eq!(book.picture(), [2; 192]);
    let short = WordCall { oldest: &oldest[1..], ..call(CallForm::Default, 1) };
    assert_eq!(book.enter_words(&short), refused(8, 0));
}

/// After 75 stores the place is 1 and ten pixels of the second block are drawn.
#[test]
fn book_after_some_stores() {
    let (last, oldest, packet) = ([1; 128], [2; 128], parted(&[7, 0], &[0]));
    let call = |allowed| WordCall {
        form: CallForm::Strict,
        columns: 2,
        rows: 1,
        map: &[0xE2],
        packet: &packet,
        last: &last,
        oldest: &oldest,
        allowed,
    };
    let mut book = Book::open(&[5; 128]);
    book.enter_words(&call(75)).expect("accepted");
    assert_eq!(book.place(), 1);
    assert_eq!(book.picture()[..16], [[2; 8], [7; 8]].concat());
    assert_eq!(book.picture()[16..32], [2, 2, 2, 2, 2, 2, 2, 2, 7, 7, 5, 5, 5, 5, 5, 5]);
}
