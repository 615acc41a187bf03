//! Frames of Microsoft Video 1 (02, W12): the proved library gives what the second program gives; every
//! refusal is reached, alone and before those that stand behind it in the order, and planted faults are found.

use compare::trailers::{compare, question, Made, Question, Trailers};
use compare::{Proved, Second};
use maker::trailers::{skip, END_MARK, LONGEST_SKIP};
use maker::Size;
use reference::Refusal;
use std::collections::BTreeMap;

const QUESTIONS: u64 = 8_000;
/// How often each thing must be reached at least.
const OFTEN: usize = 50;

/// The answer of a call whose faults are known by construction: 6, 8, then that of the data.
fn expected(is_size_wrong: bool, is_short: bool, fault: Option<u8>) -> Option<u8> {
    match (is_size_wrong, is_short) {
        (true, _) => Some(6),
        (false, true) => Some(8),
        (false, false) => fault,
    }
}

/// With a wrong size or not, a short picture or not, and each fault of the data or none.
#[test]
fn refusals_in_their_order() {
    let (mut reached, mut hostile) = (BTreeMap::new(), BTreeMap::new());
    for number in 0..QUESTIONS {
        let question = question(number);
        let answers = compare(&Proved, &Second, &question);
        let answers = answers.unwrap_or_else(|differs| panic!("question {number}: {differs:?}"));
        for (answer, &length) in answers.into_iter().zip(&question.lengths) {
            let answer = answer.err().map(|refusal| refusal.number);
            let fault = match question.made {
                Made::Valid => None,
                Made::Faulty(number) => Some(number),
                Made::Hostile => {
                    *hostile.entry(answer).or_insert(0) += 1;
                    continue;
                }
            };
            let faults = (question.is_size_wrong(), length < question.size.pixels(), fault);
            assert_eq!(answer, expected(faults.0, faults.1, faults.2), "question {number}");
            *reached.entry(faults).or_insert(0) += 1;
        }
    }
    println!("{reached:#?} {hostile:#?}");
    assert_eq!(reached.len(), 2 * 2 * 4);
    for (faults, times) in reached {
        assert!(times >= OFTEN, "{faults:?} reached {times} times");
    }
    for answer in [6, 8, 24, 25, 26].map(Some) {
        let times = hostile.get(&answer).copied().unwrap_or(0);
        assert!(times >= OFTEN, "{answer:?} reached {times} times by hostile data");
    }
}

fn alike(question: &Question) -> Vec<Option<u8>> {
    let answers = compare(&Proved, &Second, question);
    let answers = answers.unwrap_or_else(|differs| panic!("{differs:?}"));
    answers.into_iter().map(|answer| answer.err().map(|refusal| refusal.number)).collect()
}

/// A question of a legal size, on a picture of exactly that size.
fn exact(size: Size, data: Vec<u8>) -> Question {
    let (columns, rows) = (size.columns, size.rows);
    Question { size, columns, rows, data, made: Made::Hostile, lengths: vec![size.pixels()] }
}

/// Every skip, up to a block of one colour; in frames that have exactly as many blocks, and one less.
#[test]
fn every_skip() {
    let mut outside = 0;
    for count in 0..=LONGEST_SKIP {
        // 16 by 16 blocks of 8x8: 1,024 of 4x4.
        let size = Size::new(16, 16);
        let mut data = [&skip(count)[..], &[9, 0x80]].concat();
        if count < LONGEST_SKIP {
            data.extend(skip(LONGEST_SKIP - count)); // one of none in front of the mark would be 26
        }
        data.extend(END_MARK);
        assert_eq!(alike(&exact(size, data)), [None], "{count}");
        for (columns, rows) in [(1, 1), (4, 4), (8, 8), (5, 13)] {
            let size = Size::new(columns, rows);
            let data = [&skip(count)[..], &END_MARK].concat();
            let number = match count.cmp(&(4 * columns * rows)) {
                std::cmp::Ordering::Less => 24, // 00 00 is a block without its colours
                std::cmp::Ordering::Equal => 0,
                std::cmp::Ordering::Greater => 25,
            };
            outside += usize::from(number == 25);
            assert_eq!(alike(&exact(size, data)), [Some(number).filter(|&n| n > 0)], "{count}");
        }
    }
    assert_eq!(outside, 4 * 1023 - 4 - 64 - 256 - 260);
}

/// Every pair of bytes a and b as the first code of a frame, with what each code needs behind it.
#[test]
fn every_code() {
    let mut answers = BTreeMap::new();
    for b in 0..=255 {
        for a in 0..=255 {
            let data = [&[a, b][..], &[1, 2, 3, 4, 5, 6, 7, 8], &skip(3), &END_MARK].concat();
            let long = match b {
                0x00..=0x7F => 4,
                0x90..=0xFF => 10,
                _ => 2,
            };
            let data = [&data[..long], &data[10..]].concat();
            for answer in alike(&exact(Size::new(1, 1), data)) {
                *answers.entry(answer).or_insert(0) += 1;
            }
        }
    }
    // Of 1,024 skips one passes a block, as all other codes do. With three more blocks skipped behind it one of
    // none is short of a block, one of 4 needs none of them, and the others pass the last block.
    let expected = [(None, 252 * 256 + 1), (Some(24), 1), (Some(25), 1021), (Some(26), 1)];
    assert_eq!(answers, BTreeMap::from(expected));
}

/// A frame of every code, cut at each byte, and with each byte set to other values.
#[test]
fn every_cut_and_every_byte() {
    let frame = [
        &[1, 0x80][..],
        &[0x0F, 0x33, 5, 6],
        &[0xA5, 0x9C, 1, 2, 3, 4, 5, 6, 7, 8],
        &skip(0),
        &skip(1),
        &END_MARK,
    ]
    .concat();
    let size = Size::new(1, 1);
    for end in 0..frame.len() {
        let number = if end < frame.len() - 2 { 24 } else { 26 };
        assert_eq!(alike(&exact(size, frame[..end].to_vec())), [Some(number)], "{end}");
    }
    for at in 0..frame.len() {
        for value in 0..=255 {
            let mut data = frame.clone();
            data[at] = value;
            alike(&exact(size, data));
        }
    }
}

/// A program with a fault.
struct Faulty<F>(F);

impl<F: Fn(usize, usize, &[u8], &mut [u8]) -> Result<(), Refusal>> Trailers for Faulty<F> {
    fn video1(
        &self,
        columns: usize,
        rows: usize,
        data: &[u8],
        picture: &mut [u8],
    ) -> Result<(), Refusal> {
        (self.0)(columns, rows, data, picture)
    }
}

fn is_found(fault: impl Fn(usize, usize, &[u8], &mut [u8]) -> Result<(), Refusal>) -> bool {
    let faulty = Faulty(fault);
    (0..500).any(|number| compare(&faulty, &Second, &question(number)).is_err())
}

/// The rows of a picture in the other order.
fn turned(columns: usize, picture: &[u8]) -> Vec<u8> {
    picture.chunks(8 * columns).rev().flatten().copied().collect()
}

#[test]
fn faults_are_found() {
    let right = |columns, rows, data: &[u8], picture: &mut [u8]| {
        Second.video1(columns, rows, data, picture)
    };
    assert!(!is_found(right));
    // The rows run from the top.
    assert!(is_found(|columns, rows, data, picture| {
        let pixels = 64_usize.saturating_mul(columns).saturating_mul(rows);
        let mut upside_down = match picture.get(..pixels) {
            Some(picture) if pixels > 0 => turned(columns, picture),
            _ => return right(columns, rows, data, picture),
        };
        let answer = right(columns, rows, data, &mut upside_down);
        picture[..pixels].copy_from_slice(&turned(columns, &upside_down));
        answer
    }));
    // A refused frame has stored.
    assert!(is_found(|columns, rows, data, picture| {
        let answer = right(columns, rows, data, picture);
        if let (Err(_), Some(first)) = (answer, picture.first_mut()) {
            *first ^= 1;
        }
        answer
    }));
    // A frame stores behind its size.
    assert!(is_found(|columns, rows, data, picture| {
        right(columns, rows, data, picture)?;
        if let Some(last) = picture[64 * columns * rows..].last_mut() {
            *last ^= 1;
        }
        Ok(())
    }));
    // The end mark is not asked for.
    assert!(is_found(|columns, rows, data, picture| {
        let marked = [data, &END_MARK].concat();
        right(columns, rows, data, picture).or_else(|_| right(columns, rows, &marked, picture))
    }));
    // 8 is tested before 6.
    assert!(is_found(|columns, rows, data, picture| {
        match right(columns, rows, data, picture) {
            Err(Refusal { number: 6, .. }) if picture.len() < 64 => Err(Refusal::new(8)),
            answer => answer,
        }
    }));
    // The last skip may pass the last block.
    assert!(is_found(|columns, rows, data, picture| {
        match right(columns, rows, data, picture) {
            Err(Refusal { number: 25, .. }) => Ok(()),
            answer => answer,
        }
    }));
}
