//! Frames of one's own (02, W10): the proved library gives what the second program gives; every refusal,
//! their order and every code are reached, and planted faults are found. Every picture of made films is
//! encoded and drawn again.

use compare::encodes::{compare, question, Answer, Encoder, Fault, Made, Question, Task};
use compare::{Proved, Second};
use maker::packet::Draft;
use maker::{film, Form, Profile, Seeded, Size};
use reference::encode::{CODES, FRONT, MOST};
use reference::film::{opcode_head, Lent, State, Stepped};
use reference::{packet, palette, Refusal};
use std::collections::BTreeMap;

const QUESTIONS: u64 = 1_920;
/// Questions among which a fault must be found.
const FEW: u64 = 640;
/// How often each thing must be reached at least.
const OFTEN: usize = 5;

type Reached = BTreeMap<String, usize>;

fn count(reached: &mut Reached, event: String) {
    *reached.entry(event).or_insert(0) += 1;
}

fn assert_reached(reached: &Reached, wanted: &[String]) {
    println!("{reached:#?}");
    for event in wanted {
        let times = reached.get(event).copied().unwrap_or(0);
        assert!(times >= OFTEN, "{event} reached {times} times");
    }
    assert_eq!(reached.len(), wanted.len(), "something else is answered");
}

/// The code of each block with its count of data bytes, which tells the forms of 7 apart.
fn codes(task: &Task, made: &Made) -> Vec<(u8, usize)> {
    let blocks = packet::blocks(task.columns, task.rows, &made.map, &made.packet);
    let blocks = blocks.expect("a packet that is accepted");
    blocks.iter().map(|block| (block.code, block.data.len())).collect()
}

/// Every refusal by what is wrong, and each code.
#[test]
fn every_answer_is_reached() {
    let (mut reached, mut used) = (Reached::new(), Reached::new());
    for number in 0..QUESTIONS {
        let question = question(number);
        let answers = compare(&Proved, &Second, &question);
        let answers = answers.unwrap_or_else(|differs| panic!("question {number}: {differs:?}"));
        for (answer, rooms) in answers.iter().zip(&question.rooms) {
            let told = match answer {
                Ok(_) => "taken".to_owned(),
                Err(Refusal { number, block }) => format!("{number}, block {block}"),
            };
            let is_fault = question.fault != Fault::Nothing;
            let room = if is_fault && *rooms == (0, 0) { ", no room" } else { "" };
            count(&mut reached, format!("{:?}: {told}{room}", question.fault));
            for (code, length) in answer.iter().flat_map(|made| codes(&question.task, made)) {
                count(&mut used, format!("{code:X}, {length}"));
            }
        }
    }
    let mut wanted = vec!["Nothing: taken".to_owned(), "Nothing: 19, block 0".to_owned()];
    wanted.extend((-3..1).map(|over| format!("Length({over}): taken")));
    wanted.extend((-3..1).map(|over| format!("Length({over}): 19, block 0")));
    // 6 before 8 and 19, 8 before 23 and 19, 23 before 19.
    let short = (0..3).map(|which| format!("Short({which}): 8, block 0"));
    let long = (1..3).map(|over| format!("Length({over}): 23, block 0"));
    for refused in short.chain(long).chain(["Size: 6, block 0".to_owned()]) {
        wanted.extend([refused.clone(), format!("{refused}, no room")]);
    }
    assert_reached(&reached, &wanted);
    let forms = [(0, 0), (1, 0), (7, 4), (7, 10), (11, 64), (12, 16), (13, 4), (14, 1), (15, 2)];
    assert_reached(&used, &forms.map(|(code, length)| format!("{code:X}, {length}")));
}

/// A frame that a film draws: what is wanted, with both pictures before it, and its packet.
struct Frame {
    task: Task,
    map: Vec<u8>,
    data: Vec<u8>,
}

/// The frames of a valid film.
fn frames(film: &[u8]) -> Vec<Frame> {
    let mut frames = Vec::new();
    let mut state = reference::film::open(film, mve::NO_STREAM).expect("a valid film");
    let (mut colours, mut place) = (vec![0; palette::LENGTH], 0);
    let mut pictures = [vec![0; mve::PICTURE_BYTES], vec![0; mve::PICTURE_BYTES]];
    loop {
        let back = pictures[1 - state.front][..state.pixels()].to_vec();
        let [a, b] = &mut pictures;
        let lent = Lent {
            palette: &mut colours,
            picture_a: a,
            picture_b: b,
            place: &mut place,
            room: &mut [],
            words: Default::default(),
        };
        match reference::film::step(film, state, lent, mve::ALL_STORES) {
            Stepped::Taken(after, ..) => state = after,
            Stepped::Whole(after, ..) => {
                frames.push(frame(film, &state, back, &pictures));
                state = after;
            }
            Stepped::Ended(_) => return frames,
            other => panic!("{other:?}"),
        }
    }
}

/// The frame that a step drew on `back`.
fn frame(film: &[u8], state: &State, back: Vec<u8>, pictures: &[Vec<u8>; 2]) -> Frame {
    let picture = |which: usize| pictures[which][..state.pixels()].to_vec();
    let (columns, rows) = (state.columns, state.rows);
    let (wanted, front) = (picture(1 - state.front), picture(state.front));
    let head =
        opcode_head(film, state.position, state.chunk_end).expect("an opcode that was taken");
    let body = head.body.of(film).expect("a body inside the film");
    let map = state.map.and_then(|map| map.of(film)).expect("a map inside the film");
    let task = Task { columns, rows, wanted, front, back };
    Frame { task, map: map.to_vec(), data: body[FRONT..].to_vec() }
}

/// The packet's bytes and those that the encoder needs for its picture. None where the packet has other
/// codes than the encoder's.
fn bytes(frame: Frame) -> Option<(usize, usize)> {
    let Frame { task, map, data } = frame;
    let blocks = packet::blocks(task.columns, task.rows, &map, &data).expect("a valid packet");
    let is_own = blocks.iter().all(|block| CODES.contains(&block.code));
    let rooms = vec![(mve::MAP_BYTES, mve::BODY_BYTES)];
    let question = Question { fault: Fault::Nothing, task, rooms };
    let answers = compare(&Proved, &Second, &question).expect("no difference");
    match &answers[..] {
        [Ok(made)] => is_own.then_some((data.len(), made.packet.len())),
        other => panic!("{other:?}"),
    }
}

/// Every picture of made films is encoded and drawn again; and where its packet uses the eight codes alone,
/// the encoder's has no more data bytes.
#[test]
fn pictures_of_films() {
    let (mut all, mut own, mut fewer) = (0, 0, 0);
    let mut take = |film: Vec<u8>| {
        for frame in frames(&film) {
            all += 1;
            if let Some((before, after)) = bytes(frame) {
                assert!(after <= before, "{after} bytes, and the film has {before}");
                own += 1;
                fewer += usize::from(after < before);
            }
        }
    };
    for seed in 0..200 {
        take(film::with_frames(&mut Seeded::new(seed), 4).bytes());
    }
    let of_codes: Vec<Form> =
        Form::ALL.into_iter().filter(|form| CODES.contains(&form.code())).collect();
    assert_eq!(of_codes.len(), CODES.len() + 1, "7 has two forms");
    for seed in 0..10 {
        let rng = &mut Seeded::new(seed);
        for profile in of_codes.iter().map(|&form| Profile::Only(form)).chain([Profile::Raw]) {
            let size = Size::small(rng);
            take(film::plain(rng, size, profile, 3).bytes());
        }
    }
    println!("{all} pictures, {own} of the eight codes, {fewer} in fewer bytes");
    assert!(all >= 900 && own >= 300 && fewer >= 10, "{all}, {own}, {fewer}");
}

/// Packets of the eight codes by chance, on pictures by chance.
#[test]
fn no_more_bytes_than_a_made_packet() {
    let (mut fewer, mut equal) = (0, 0);
    for seed in 0..400 {
        let rng = &mut Seeded::new(seed);
        let size = Size::small(rng);
        let mut draft = Draft::make(rng, size, Profile::Mixed);
        for (number, block) in draft.blocks.iter_mut().enumerate() {
            while !CODES.contains(&block.code) {
                let form = rng.pick(&Form::ALL);
                *block = form.block(rng, size, number).unwrap_or_else(|| block.clone());
            }
        }
        let made = draft.packet();
        let (front, back) = (rng.bytes(size.pixels()), rng.bytes(size.pixels()));
        let mut wanted = back.clone();
        let (columns, rows) = (size.columns, size.rows);
        let (map, data) = (made.map, made.data);
        let drawn = reference::draw(
            columns,
            rows,
            &map,
            &data,
            &front,
            &mut wanted,
            &mut 0,
            mve::ALL_STORES,
        );
        drawn.expect("a valid packet");
        let task = Task { columns, rows, wanted, front, back };
        let (before, after) = bytes(Frame { task, map, data }).expect("the eight codes");
        assert!(after <= before, "seed {seed}: {after} bytes, and the packet has {before}");
        *(if after < before { &mut fewer } else { &mut equal }) += 1;
    }
    println!("{fewer} in fewer bytes, {equal} in as many");
    assert!(fewer >= OFTEN && equal >= OFTEN);
}

/// A program with a fault.
struct Faulty<F>(F);

impl<F: Fn(&Task, &mut [u8], &mut [u8]) -> Answer> Encoder for Faulty<F> {
    fn encode(&self, task: &Task, map: &mut [u8], body: &mut [u8]) -> Answer {
        (self.0)(task, map, body)
    }
}

fn is_found(fault: impl Fn(&Task, &mut [u8], &mut [u8]) -> Answer) -> bool {
    let faulty = Faulty(fault);
    (0..FEW).any(|number| compare(&faulty, &Second, &question(number)).is_err())
}

#[test]
fn faults_in_what_is_written() {
    assert!(!is_found(|task, map, body| Second.encode(task, map, body)));
    assert!(is_found(|task, map, body| {
        let (map_length, body_length) = Second.encode(task, map, body)?;
        if task.columns * task.rows % 2 == 1 {
            map[map_length - 1] |= 0x10; // a spare nibble that is not zero
        }
        Ok((map_length, body_length))
    }));
    assert!(is_found(|task, map, body| {
        let lengths = Second.encode(task, map, body)?;
        body[FRONT - 2] = 1; // byte 12 of the body
        Ok(lengths)
    }));
    assert!(is_found(|task, map, body| {
        let lengths = Second.encode(task, map, body)?;
        body[lengths.1..].fill(0); // the rest of the room does not stay
        Ok(lengths)
    }));
    assert!(is_found(|task, map, body| {
        let answer = Second.encode(task, map, body);
        if answer.is_err() && body.len() >= FRONT {
            body[..FRONT].fill(0); // stored before 19 is judged
        }
        answer
    }));
}

#[test]
fn faults_in_the_tests() {
    assert!(is_found(|task, map, body| {
        // 23 at 65,531 bytes
        let lengths = Second.encode(task, map, body)?;
        (lengths.1 < MOST).then_some(lengths).ok_or(Refusal::new(23))
    }));
    assert!(is_found(|task, map, body| {
        // the room is tested without its 14 bytes
        let mut long = vec![0; body.len() + FRONT];
        let lengths = Second.encode(task, map, &mut long)?;
        body.copy_from_slice(&long[..body.len()]);
        Ok(lengths)
    }));
    assert!(is_found(|task, map, body| {
        // front is not tested for its length
        let long = [&task.front[..], &[0]].concat();
        Second.encode(&Task { front: long, ..task.clone() }, map, body)
    }));
    assert!(is_found(|task, map, body| match Second.encode(task, map, body) {
        // 19 before 23
        Err(refusal) if refusal.number == 23 && map.is_empty() => Err(Refusal::new(19)),
        answer => answer,
    }));
}

/// Each choice against front and back: a program that takes the one for the other.
#[test]
fn faults_in_the_choice() {
    assert!(is_found(|task, map, body| {
        // code 1 is judged against front
        let Task { front, .. } = task;
        Second.encode(&Task { back: front.clone(), ..task.clone() }, map, body)
    }));
    assert!(is_found(|task, map, body| {
        // 1 before 0
        let lengths = Second.encode(task, map, body)?;
        for (number, byte) in map[..lengths.0].iter_mut().enumerate() {
            let size = reference::frame::FrameSize::new(task.columns, task.rows).expect("a size");
            let is_both = |k: usize| {
                let of = |picture: &[u8]| reference::encode::square(size, picture, k);
                k < size.blocks() && of(&task.wanted) == of(&task.back)
            };
            for half in [0, 1].into_iter().filter(|half| is_both(2 * number + half)) {
                *byte |= 1 << (4 * half); // 0 becomes 1, and 1 stays
            }
        }
        Ok(lengths)
    }));
}
