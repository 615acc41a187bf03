//! What is left of scratched films (02, W13): the proved library gives what the second program gives;
//! every refusal and every way to stop is reached, and planted faults are found.

use compare::salvages::{compare, question, reached, Account, Question, Saver};
use compare::{Proved, Second};
use maker::scratches;
use maker::Seeded;
use reference::salvage::{salvage, Stop, END_CHUNK, NUMBERS};
use reference::Refusal;
use std::collections::BTreeMap;

const QUESTIONS: u64 = 4_000;
/// How often each thing must be reached at least.
const OFTEN: usize = 50;

type Answer = Result<Account, Refusal>;

/// Each way to stop with no chunk left out, one, two and more; each refusal of a chunk in the list; 1, and 19
/// by the film, by the list and by both. Nothing else is answered.
#[test]
fn every_answer_is_reached() {
    let mut times = BTreeMap::new();
    for number in 0..QUESTIONS {
        let question = question(number);
        let answers = compare(&Proved, &Second, &question);
        let answers = answers.unwrap_or_else(|differs| panic!("question {number}: {differs:?}"));
        for event in reached(&question, &answers) {
            *times.entry(event).or_insert(0) += 1;
        }
    }
    println!("{times:#?}");
    let stops = ["FilmEnd", "BehindEnd", "PastEnd"];
    let stops = stops.iter().flat_map(|stop| (0..4).map(move |n| format!("{stop}, {n} left out")));
    let listed = [3, 4, 5].map(|number| format!("listed {number}"));
    let short =
        ["film", "list", "film and list"].map(|what| format!("refused 19: {what} too short"));
    let refused = [String::from("refused 1")].into_iter().chain(short);
    let wanted: Vec<String> = stops.chain(listed).chain(refused).collect();
    for event in &wanted {
        let times = times.get(event).copied().unwrap_or(0);
        assert!(times >= OFTEN, "{event} reached {times} times");
    }
    assert_eq!(times.len(), wanted.len(), "something else is answered");
}

/// Scratched films, cut at each byte.
#[test]
fn every_cut() {
    for seed in 0..20 {
        let film = scratches::make(&mut Seeded::new(seed)).bytes();
        for end in 0..film.len() {
            let film = film[..end].to_vec();
            let question = Question { rooms: vec![(end + 8, end)], film };
            let answers = compare(&Proved, &Second, &question);
            assert!(answers.is_ok(), "seed {seed}, {end} bytes: {answers:?}");
        }
    }
}

/// Each byte of a chunk's head and of an opcode's head set to other values.
#[test]
fn every_byte_of_a_head() {
    let film = [
        &b"Interplay MVE File\x1A\0\x1A\0\0\x01\x33\x11"[..],
        &[8, 0, 3, 0, 4, 0, 0x07, 0, 1, 2, 3, 4],
        &[10, 0, 3, 0, 6, 0, 0x09, 0, 0, 0, 1, 0, 4, 0],
        &[4, 0, 3, 0, 0, 0, 0x00, 0],
    ]
    .concat();
    for at in 0..film.len() {
        for value in 0..=255 {
            let mut film = film.clone();
            film[at] = value;
            let question = Question { rooms: vec![(film.len() + 8, 9), (film.len(), 0)], film };
            let answers = compare(&Proved, &Second, &question);
            assert!(answers.is_ok(), "byte {at} is {value}: {answers:?}");
        }
    }
}

/// A program with a fault.
struct Faulty<F>(F);

impl<F: Fn(&[u8], &mut [u8], &mut [usize]) -> Answer> Saver for Faulty<F> {
    fn salvage(&self, film: &[u8], room: &mut [u8], list: &mut [usize]) -> Answer {
        (self.0)(film, room, list)
    }
}

fn is_found(fault: impl Fn(&[u8], &mut [u8], &mut [usize]) -> Answer) -> bool {
    let faulty = Faulty(fault);
    (0..QUESTIONS).any(|number| compare(&faulty, &Second, &question(number)).is_err())
}

/// A fault behind a call that is right.
fn behind(
    change: impl Fn(Account, &mut [u8], &mut [usize]) -> Account,
) -> impl Fn(&[u8], &mut [u8], &mut [usize]) -> Answer {
    move |film, room, list| {
        let account = Second.salvage(film, room, list)?;
        Ok(change(account, room, list))
    }
}

#[test]
fn faults_in_the_new_film() {
    assert!(!is_found(|film, room, list| Second.salvage(film, room, list)));
    assert!(is_found(behind(|account, room, _| {
        let bytes = account.bytes + END_CHUNK.len();
        if account.stop != Stop::BehindEnd || room.len() < bytes {
            return account;
        }
        room[account.bytes..bytes].copy_from_slice(&END_CHUNK); // behind a 00, too
        Account { bytes, ..account }
    })));
    assert!(is_found(behind(|account, room, _| {
        room[account.bytes..].fill(0); // the rest of the room does not stay
        account
    })));
    assert!(is_found(|film, room, list| {
        let answer = Second.salvage(film, room, list);
        if answer.is_err() && room.len() >= 26 && film.len() >= 26 {
            room[..26].copy_from_slice(&film[..26]); // stored before 19 is judged
        }
        answer
    }));
}

#[test]
fn faults_in_the_list() {
    assert!(is_found(behind(|account, _, list| {
        for chunk in 0..account.left_out {
            list[NUMBERS * chunk + 1] += 4; // the length counts the head
        }
        account
    })));
    assert!(is_found(behind(|account, _, list| {
        list[..NUMBERS * account.left_out].chunks_mut(NUMBERS).for_each(<[usize]>::reverse);
        account
    })));
    assert!(is_found(|film, room, list| {
        // room for as many numbers as chunks is enough
        let saved = salvage(film, room.len(), usize::MAX)?;
        if saved.left_out.len() <= list.len() && list.len() < saved.numbers().len() {
            let mut long = vec![0; saved.numbers().len()];
            let answer = Second.salvage(film, room, &mut long);
            list.copy_from_slice(&long[..list.len()]);
            return answer;
        }
        Second.salvage(film, room, list)
    }));
}

#[test]
fn faults_in_the_walk() {
    assert!(is_found(behind(|account, _, _| match account.stop {
        Stop::PastEnd => Account { stop: Stop::FilmEnd, ..account },
        _ => account,
    })));
    assert!(is_found(behind(|account, _, _| Account { kept: account.kept + 26, ..account })));
    assert!(is_found(behind(|account, _, _| Account { rest: 0, ..account })));
    assert!(is_found(|film, room, list| {
        // the walk stops behind a chunk that is left out with opcode 00 in it
        let saved = salvage(film, usize::MAX, usize::MAX)?;
        let ends = saved.left_out.iter().map(|chunk| chunk.position + 4 + chunk.length);
        let end = ends.into_iter().find(|&end| film[..end].ends_with(&[0, 0, 0, 0]));
        let Some(end) = end else { return Second.salvage(film, room, list) };
        let account = Second.salvage(&film[..end], room, list)?;
        Ok(Account { rest: film.len() - end, ..account })
    }));
}

/// The film with the opcodes of these types made ones that are passed over, whatever their version and
/// length. The damage behind an opcode that passes its chunk stays.
fn untested(film: &[u8], kinds: &[u8]) -> Vec<u8> {
    let word = |at: usize| usize::from(film[at]) + 256 * usize::from(film[at + 1]);
    let (mut masked, mut head) = (film.to_vec(), 26);
    while head + 4 <= film.len() && head + 4 + word(head) <= film.len() {
        let (mut at, end) = (head + 4, head + 4 + word(head));
        while at + 4 <= end {
            if kinds.contains(&film[at + 2]) {
                masked[at + 2] = 0x02;
            }
            at += 4 + word(at);
        }
        head = end;
    }
    masked
}

/// A program that does not test opcodes of these types.
fn without_tests(kinds: &'static [u8]) -> impl Fn(&[u8], &mut [u8], &mut [usize]) -> Answer {
    move |film, room, list| {
        let masked = untested(film, kinds);
        let account = Second.salvage(&masked, room, list)?;
        let (mut from, mut to) = (26, 26); // the bytes of the film itself, chunk by chunk
        for loss in list[..NUMBERS * account.left_out].chunks(NUMBERS) {
            room[to..][..loss[0] - from].copy_from_slice(&film[from..loss[0]]);
            (from, to) = (loss[0] + 4 + loss[1], to + loss[0] - from);
        }
        let rest = 26 + account.kept - to;
        room[to..][..rest].copy_from_slice(&film[from..from + rest]);
        Ok(account)
    }
}

#[test]
fn faults_in_the_tests() {
    assert!(!is_found(without_tests(&[]))); // with all tests it is right
    assert!(!is_found(without_tests(&[0x02]))); // nothing is tested of a type that is passed over
    for kinds in [&[0x0C][..], &[0x0D], &[0x03], &[0x08], &[0x09], &[0x11], &[0x06]] {
        assert!(is_found(without_tests(kinds)), "{kinds:02X?}");
    }
}
