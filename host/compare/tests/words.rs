//! Packets with true colour (02, W7): the proved library checks them as the second decoder does, in both
//! forms, and draws them by lists of calls so, after every call, and as the book of demand 3 says.

mod common;

use compare::{Comparison, Event, Kind, Proved, Second, Unparted};
use maker::word_calls::{WordCall, WordCallList};
use maker::words::{WordDraft, WordForm, WordProfile, LONG};
use maker::{Packet, Seeded, Size};
use reference::CallForm;
use std::collections::BTreeSet;

const SEED: u64 = 1;
const CASES: u64 = 4000;

#[test]
fn words() {
    let mut comparison = Comparison::new(Proved, Second);
    let compared = comparison.run(Kind::Words, SEED, 0..CASES);
    compared.unwrap_or_else(|found| panic!("{found}"));
    let answers = [
        Event::Accepted,
        Event::Whole,
        Event::WholeBefore,
        Event::Unfinished,
        Event::NothingAllowed,
        Event::Cut,
        Event::RefusedBetween,
        Event::LaterBlock,
        Event::Longer,
        Event::Smallest,
        Event::Largest,
    ];
    let numbers = [6, 8, 10, 11, 13, 14, 15, 20].map(Event::Refused);
    let unparted = Unparted::ALL.map(Event::Unparted);
    let parts = [1, 2].map(Event::ShortPart);
    let wanted = [&answers[..], &numbers, &unparted, &parts, &common::WORDS_OVER].concat();
    common::assert_reached_words(comparison.tally(), &wanted);
    assert_eq!(comparison.tally().times(Event::Refused(12)), 0, "there is no 12 with true colour");
}

/// A valid packet and the pictures that it is drawn with.
struct Frame {
    draft: WordDraft,
    form: CallForm,
    pictures: [Vec<u16>; 3],
}

impl Frame {
    /// In the default form every other packet is padded; none is in the strict form.
    fn make(seed: u64, size: Size, profile: WordProfile) -> Frame {
        let rng = &mut Seeded::new(seed);
        let form = rng.pick(&CallForm::ALL);
        let over = if form == CallForm::Default { rng.below(2) } else { 0 };
        let draft = WordDraft::make(rng, size, profile, LONG).with_over(rng, over);
        Frame { draft, form, pictures: [(); 3].map(|()| rng.words(size.pixels())) }
    }

    fn list(&self, allowances: &[usize]) -> WordCallList {
        let [last, oldest, new] = self.pictures.clone();
        let calls = allowances.iter().map(|&allowed| WordCall {
            form: self.form,
            packet: self.draft.packet(),
            last: last.clone(),
            oldest: oldest.clone(),
            allowed,
            cut: None,
            refused: false,
        });
        WordCallList { calls: calls.collect(), new }
    }
}

/// Every allowance from none to one more than is due, in frames of up to 2x2 blocks of every form; and
/// again behind an earlier call that was stopped inside a block, about its place, or at the end.
#[test]
fn every_allowance() {
    let profiles = || WordProfile::MANY.into_iter().chain(WordForm::ALL.map(WordProfile::Only));
    let sizes = [(1, 1), (2, 1), (1, 2), (2, 2), (3, 1)];
    let mut comparison = Comparison::new(Proved, Second);
    let mut seed = 0;
    for (columns, rows) in sizes {
        for profile in profiles() {
            seed += 1;
            let frame = Frame::make(seed, Size::new(columns, rows), profile);
            let all = frame.draft.stores_from(0);
            let stops = BTreeSet::from([0, 10, 64, 65, all / 2, all - 1, all]);
            for stop in stops.into_iter().filter(|&stop| stop <= all) {
                let due = frame.draft.stores_from(frame.draft.place_after(0, stop));
                let step = if stop == 0 || columns * rows == 1 { 1 } else { 7 };
                for allowed in (0..=due + 1).step_by(step).chain([usize::MAX]) {
                    let compared = comparison.draw_words(&frame.list(&[stop, allowed]));
                    compared.unwrap_or_else(|difference| {
                        panic!("{profile:?}, {stop} and {allowed} stores: {difference}")
                    });
                }
            }
        }
    }
    let answers = [Event::Whole, Event::WholeBefore, Event::Unfinished, Event::NothingAllowed];
    common::assert_reached_words(comparison.tally(), &answers);
}

/// Frames at the limits of the size, by calls of several allowances.
#[test]
fn limits() {
    let mut comparison = Comparison::new(Proved, Second);
    for (columns, rows) in [(80, 60), (1, 1), (80, 1), (1, 60)] {
        for profile in [WordProfile::Mixed, WordProfile::NewCopies, WordProfile::Light] {
            let frame = Frame::make(columns as u64, Size::new(columns, rows), profile);
            for allowed in [52_000, 312_000] {
                let calls = frame.draft.stores_from(0).div_ceil(allowed);
                let compared = comparison.draw_words(&frame.list(&vec![allowed; calls]));
                compared.unwrap_or_else(|difference| panic!("{profile:?}: {difference}"));
            }
        }
    }
    assert!(comparison.tally().times(Event::Largest) >= 6);
    assert!(comparison.tally().times(Event::Smallest) >= 6);
}

/// A packet of one block of code E with every offset and every number of bytes up to 8, and one of code 4:
/// what is 20, 13, 15 and taken.
#[test]
fn every_offset() {
    let mut comparison = Comparison::new(Proved, Second);
    for code in [0x0, 0x4, 0x5, 0xE] {
        for length in 0..=8 {
            for offset in (0..=12).chain([255, 256, 257, 258, 512, 0x8000, 0xFFFF]) {
                let offset: u16 = offset;
                let mut data = offset.to_le_bytes().to_vec();
                data.extend([0x88; 8]);
                data.truncate(length);
                let packet = Packet { columns: 1, rows: 1, map: vec![code], data };
                let compared = comparison.check_words(&packet);
                compared.unwrap_or_else(|difference| panic!("{packet:?}: {difference}"));
            }
        }
    }
    let wanted = Unparted::ALL.map(Event::Unparted);
    let others = [13, 14, 15, 20].map(Event::Refused);
    for event in wanted.iter().chain(&others).chain(&[Event::Accepted]) {
        assert!(comparison.tally().times(*event) > 0, "{event:?}");
    }
}

/// Each byte of the second part as the vector of each code that has one, and each pair as that of codes 5 and
/// 6, for the block in the middle of 3x3.
#[test]
fn every_vector() {
    let mut comparison = Comparison::new(Proved, Second);
    let mut compare = |code: u8, first: &[u8], second: &[u8]| {
        let map = vec![0x00, 0x00, code, 0x00, 0x00];
        let offset = (2 + first.len() as u16).to_le_bytes();
        let data = [&offset[..], first, second].concat();
        let packet = Packet { columns: 3, rows: 3, map, data };
        let compared = comparison.check_words(&packet);
        compared.unwrap_or_else(|difference| panic!("{packet:?}: {difference}"));
    };
    for byte in 0..=255 {
        for code in [0x2, 0x3, 0x4] {
            compare(code, &[], &[byte]);
        }
        for other in 0..=255 {
            compare(0x5, &[byte, other], &[]);
            compare(0x6, &[other, byte], &[]);
        }
    }
    let times = |event| comparison.tally().times(event);
    // In x and in y 17 of 256 are inside; of codes 2 and 3 as many as are counted below; of code 4 all.
    assert_eq!(times(Event::Accepted), 2 * (2 * 17 * 17 + 2 * inside() + 256));
    assert!(times(Event::Refused(14)) > 100_000);
}

/// The bytes of code 2 whose vector goes 8 at most to each side and down (01's table).
fn inside() -> usize {
    let vector = |b: i32| match b {
        0..56 => (8 + b % 7, b / 7),
        _ => (-14 + (b - 56) % 29, 8 + (b - 56) / 29),
    };
    (0..256).map(vector).filter(|(x, y)| x.abs() <= 8 && *y <= 8).count()
}

/// The block so numbered of a frame of `side` by `side` has the code, and its data in each part; the others are of
/// code 0.
fn with_block(side: usize, number: usize, code: u8, first: &[u8], second: &[u8]) -> Packet {
    let mut map = vec![0; (side * side).div_ceil(2)];
    map[number / 2] = code << (4 * (number % 2));
    let offset = (2 + first.len() as u16).to_le_bytes();
    let data = [&offset[..], first, second].concat();
    Packet { columns: side, rows: side, map, data }
}

/// Each byte as the vector of codes 2 to 4, for each block of 7x7: from its nine in the middle all point inside, and
/// the library works out no vector there.
#[test]
fn every_near_vector_of_every_block() {
    let mut comparison = Comparison::new(Proved, Second);
    let (mut accepted, mut checked) = (0, 0);
    for number in 0..49 {
        for code in [0x2, 0x3, 0x4] {
            for byte in 0..=255 {
                let packet = with_block(7, number, code, &[], &[byte]);
                let compared = comparison.check_words(&packet);
                compared.unwrap_or_else(|difference| panic!("{packet:?}: {difference}"));
                checked += 1;
            }
            accepted += inside_of(7, number, code);
        }
    }
    assert_eq!(
        [16, 17, 18, 23, 24, 25, 30, 31, 32].map(|number| inside_of(7, number, 0x2)),
        [256; 9]
    );
    assert_eq!(comparison.tally().times(Event::Accepted), 2 * accepted);
    assert_eq!(comparison.tally().times(Event::Refused(14)), 2 * (checked - accepted));
}

/// The bytes by which a copy of this code, 2, 3 or 4, lies inside a frame of `side` by `side` blocks (01's tables).
fn inside_of(side: usize, number: usize, code: u8) -> usize {
    let ahead = |b: i32| match b {
        0..56 => (8 + b % 7, b / 7),
        _ => (-14 + (b - 56) % 29, 8 + (b - 56) / 29),
    };
    let vector = |b: i32| match code {
        0x2 => ahead(b),
        0x3 => (-ahead(b).0, -ahead(b).1),
        _ => (b % 16 - 8, b / 16 - 8),
    };
    let fits =
        |block: usize, by: i32| (0..=8 * (side as i32 - 1)).contains(&(8 * block as i32 + by));
    (0..256).map(vector).filter(|&(x, y)| fits(number % side, x) && fits(number / side, y)).count()
}
