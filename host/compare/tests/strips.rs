//! Films without what the player passes over (02, W14): the proved library gives what the second program
//! gives, both films play the same; every answer is reached, and planted faults are found.

use compare::strips::{compare, question, reached, Answer, Question, Stripper};
use compare::{Proved, Second};
use maker::{strips, Seeded};
use reference::strip::strip;
use std::collections::BTreeMap;

const QUESTIONS: u64 = 8_000;
/// How often each thing must be reached at least.
const OFTEN: usize = 20;

/// Each refusal, each end of a film that is taken, every stream and none. Nothing else is answered.
#[test]
fn every_answer_is_reached() {
    let mut times = BTreeMap::new();
    for number in 0..QUESTIONS {
        let question = question(number);
        let compared = compare(&Proved, &Second, &Proved, &question);
        let compared = compared.unwrap_or_else(|differs| panic!("question {number}: {differs:?}"));
        for event in reached(&question, &compared) {
            *times.entry(event).or_insert(0) += 1;
        }
    }
    println!("{times:#?}");
    let named = |names: &[&str]| names.iter().map(ToString::to_string).collect::<Vec<_>>();
    let refused = [1, 2, 3, 4, 5, 19].map(|number| format!("refused {number}"));
    let ends = [5, 6, 7, 8, 9, 10, 12, 13, 14, 15, 17, 18, 19, 20];
    let ends = ends.map(|number| format!("played to refusal {number}"));
    let streams = (0..16).map(|stream| format!("stream {stream}"));
    let others = named(&["written: the same", "written: shorter", "played to the end"]);
    let heard = named(&["pictures", "pictures with true colour", "samples", "no stream"]);
    let wanted: Vec<String> =
        refused.into_iter().chain(ends).chain(streams).chain(others).chain(heard).collect();
    for event in &wanted {
        let times = times.get(event).copied().unwrap_or(0);
        assert!(times >= OFTEN, "{event} reached {times} times");
    }
    assert_eq!(times.len(), wanted.len(), "something else is answered");
}

/// The same films played by the second program.
#[test]
fn played_by_the_second_program() {
    for number in 0..QUESTIONS / 6 {
        let compared = compare(&Second, &Second, &Second, &question(number));
        assert!(compared.is_ok(), "question {number}: {compared:?}");
    }
}

/// Padded films, cut at each byte.
#[test]
fn every_cut() {
    for seed in 0..6 {
        let film = strips::make(&mut Seeded::new(seed)).bytes();
        for end in 0..film.len().min(1500) {
            let film = film[..end].to_vec();
            let (rooms, stream) = (vec![end, end.saturating_sub(1)], seed as usize * 4);
            let question = Question { film, stream, rooms, lent: (0, 0, 0) };
            let compared = compare(&Proved, &Second, &Proved, &question);
            assert!(compared.is_ok(), "seed {seed}, {end} bytes: {compared:?}");
        }
    }
}

/// Each byte of a chunk's head and of opcodes set to other values, for a stream and for none.
#[test]
fn every_byte_of_a_head() {
    let film = [
        &b"Interplay MVE File\x1A\0\x1A\0\0\x01\x33\x11"[..],
        &[12, 0, 3, 0, 0, 0, 0x02, 0, 4, 0, 0x07, 0, 1, 2, 3, 4],
        &[10, 0, 3, 0, 6, 0, 0x09, 0, 0, 0, 1, 0, 4, 0],
        &[4, 0, 3, 0, 0, 0, 0x00, 0],
    ]
    .concat();
    for at in 0..film.len() {
        for value in 0..=255 {
            for stream in [0, 1, 16] {
                let mut film = film.clone();
                film[at] = value;
                let rooms = vec![film.len(), 30];
                let question = Question { film, stream, rooms, lent: (64, 64, 0) };
                let compared = compare(&Proved, &Second, &Proved, &question);
                assert!(compared.is_ok(), "byte {at} is {value}: {compared:?}");
            }
        }
    }
}

/// A program with a fault.
struct Faulty<F>(F);

impl<F: Fn(&[u8], usize, &mut [u8]) -> Answer> Stripper for Faulty<F> {
    fn strip(&self, film: &[u8], stream: usize, room: &mut [u8]) -> Answer {
        (self.0)(film, stream, room)
    }
}

/// Whether a fault is found beside the second program.
fn is_found(fault: impl Fn(&[u8], usize, &mut [u8]) -> Answer) -> bool {
    let faulty = Faulty(fault);
    (0..QUESTIONS / 6).any(|number| compare(&faulty, &Second, &Proved, &question(number)).is_err())
}

/// Whether it is found where both programs have it: by the films as they play, or by stripping again.
fn is_found_in_both(fault: impl Fn(&[u8], usize, &mut [u8]) -> Answer) -> bool {
    let faulty = Faulty(fault);
    (0..QUESTIONS / 6).any(|number| compare(&faulty, &faulty, &Proved, &question(number)).is_err())
}

/// A new film made in another way: written where there is room.
fn put(film: &[u8], room: &mut [u8]) -> Answer {
    room.get_mut(..film.len()).ok_or(19)?.copy_from_slice(film);
    Ok(film.len())
}

#[test]
fn faults_in_the_room() {
    assert!(!is_found(|film, stream, room| Second.strip(film, stream, room)));
    assert!(is_found(|film, stream, room| {
        let length = Second.strip(film, stream, room)?;
        room[length..].fill(0); // the rest of the room does not stay
        Ok(length)
    }));
    assert!(is_found(|film, stream, room| {
        let answer = Second.strip(film, stream, room);
        if answer.is_err() && room.len() >= 26 && film.len() >= 26 {
            room[..26].copy_from_slice(&film[..26]); // stored before 19 is judged
        }
        answer
    }));
    assert!(is_found(|film, stream, room| {
        let length = strip(film, stream, usize::MAX).map_err(|refusal| refusal.number)?.len();
        match room.len() < length {
            true if length > 26 => Err(2), // another number for too little room
            _ => Second.strip(film, stream, room),
        }
    }));
}

#[test]
fn faults_in_what_is_kept() {
    let of =
        |film: &[u8], stream| strip(film, stream, usize::MAX).map_err(|refusal| refusal.number);
    // for another stream
    assert!(is_found(|film, stream, room| put(&of(film, stream ^ 1)?, room)));
    assert!(is_found_in_both(|film, stream, room| put(&of(film, stream ^ 1)?, room)));
    // without the sound
    assert!(is_found(|film, _, room| put(&of(film, 16)?, room)));
    assert!(is_found_in_both(|film, _, room| put(&of(film, 16)?, room)));
    // the last byte is dropped
    assert!(is_found_in_both(|film, stream, room| {
        let new_film = of(film, stream)?;
        put(&new_film[..new_film.len() - 1], room)
    }));
    // nothing is dropped
    assert!(is_found(|film, stream, room| put(of(film, stream).map(|_| film)?, room)));
    // a zero byte more
    assert!(is_found_in_both(|film, stream, room| {
        put(&[of(film, stream)?, vec![0]].concat(), room)
    }));
}
