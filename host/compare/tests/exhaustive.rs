//! What there are few enough of to try all: sizes, motion vectors, data lengths, places; of a film
//! the opcodes' types, versions and body lengths, and where a run of palette entries starts; of its
//! sound formats, counts, data lengths and the bytes of compressed data. Every call is made in both
//! forms, and the strict form is compared with the default one, too. (What packets leave over is in
//! `odd_byte.rs`.)

mod common;

use common::same;
use compare::{Answer, Checked, Step, Walked};
use maker::film::{Chunk, Film, Opcode};
use maker::packet::Draft;
use maker::sound::Format;
use maker::states::Start;
use maker::{Form, Packet, Profile, Seeded, Size};
use reference::film::{open, Span, State};
use reference::sound::{Sound, NO_STREAM};
use reference::{Refusal, Rows};
use std::collections::BTreeSet;

/// Numbers that no film gives, but that a caller can: products of some of them would wrap around.
const EXTREMES: [usize; 7] =
    [1 << 16, 1 << 32, (1 << 32) + 1, (1 << 58) + 1, (1 << 61) + 1, usize::MAX / 2 + 1, usize::MAX];

/// Asserts that the answers to a check are the same. Those in both forms.
#[track_caller]
fn checks(packet: &Packet) -> [Checked; 2] {
    same(packet, |decoder, form| decoder.check(form, packet))
}

/// The same; the answer in the default form.
#[track_caller]
fn check(packet: &Packet) -> Checked {
    let [default, _] = checks(packet);
    default
}

/// Asserts that a call from this place, on pictures of any bytes, comes to the same.
#[track_caller]
fn draw(rng: &mut Seeded, packet: &Packet, found: usize, allowed: usize) -> Answer {
    let pixels = packet.pixels();
    let (front, back) = (rng.bytes(pixels), rng.bytes(pixels));
    let [(answer, ..), _] = same((found, allowed, packet), |decoder, form| {
        let (mut front, mut back, mut place) = (front.clone(), back.clone(), found);
        let answer = decoder.draw(form, packet, &mut front, &mut back, &mut place, allowed);
        (answer, place, front, back)
    });
    answer
}

/// Columns and rows past the limits, each with the map length that a legal size would have. They are
/// checked, and drawn on pictures without a byte: 6, or 8 if the size is legal.
#[test]
fn every_size() {
    let numbers = || (0..=200).chain(EXTREMES);
    let mut accepted = 0;
    for columns in numbers() {
        for rows in numbers() {
            let blocks = columns.saturating_mul(rows).min(80 * 60);
            let map = vec![0x11; blocks.div_ceil(2)];
            let packet = Packet { columns, rows, map, data: Vec::new() };
            let legal = (1..=80).contains(&columns) && (1..=60).contains(&rows);
            let expected = if legal { Ok(None) } else { Err(Refusal::new(6)) };
            assert_eq!(check(&packet), expected, "{columns}x{rows}");
            accepted += usize::from(legal);
            let drawn = same((columns, rows), |decoder, form| {
                decoder.draw(form, &packet, &mut [], &mut [], &mut 0, 65)
            });
            let number = if legal { 8 } else { 6 };
            assert_eq!(drawn, [Err(Refusal::new(number)); 2], "{columns}x{rows}");
        }
    }
    assert_eq!(accepted, 80 * 60);
}

/// A frame of 5x5 blocks, of which one is not code 1.
fn with_block(number: usize, code: u8, data: &[u8]) -> Packet {
    let mut codes = [1; 26];
    codes[number] = code;
    let map = codes.chunks(2).map(|pair| pair[0] | pair[1] << 4).collect();
    Packet { columns: 5, rows: 5, map, data: data.to_vec() }
}

/// Each vector of codes 2 to 5, in the corners, at the edges and in the middle of a frame. The
/// ones inside are drawn.
#[test]
fn every_vector() {
    let rng = &mut Seeded::new(1);
    let mut inside = [0; 6];
    for number in [0, 2, 4, 10, 12, 14, 20, 22, 24] {
        for (code, data) in vectors() {
            let packet = with_block(number, code, &data);
            if check(&packet).is_ok() {
                inside[usize::from(code)] += 1;
                assert!(draw(rng, &packet, number, 65).is_ok());
            }
        }
    }
    // Code 5 reaches each 8x8 of the frame, 33 by 33 of them, from each of the nine blocks.
    assert_eq!(inside[5], 9 * 33 * 33);
    assert!(inside[2..5].iter().all(|&times| times > 500), "{inside:?}");
}

fn vectors() -> impl Iterator<Item = (u8, Vec<u8>)> {
    let near = (2..=4).flat_map(|code| (0..=255).map(move |byte| (code, vec![byte])));
    let far = (0..=u16::MAX).map(|vector| (5, vector.to_le_bytes().to_vec()));
    near.chain(far)
}

/// Each number of data bytes from none to three too many, for each form: also too few to tell it.
#[test]
fn every_length() {
    for seed in 0..200 {
        let rng = &mut Seeded::new(seed);
        for form in Form::ALL {
            let number = 12;
            let block = form.block(rng, Size::new(5, 5), number).expect("copies from the middle");
            let whole = block.data.len();
            let data = [block.data, rng.bytes(3)].concat();
            for length in 0..=data.len() {
                let packet = with_block(number, block.code, &data[..length]);
                let row = (form != Form::Untouched).then_some(Rows { first: 2, last: 2 });
                let expected = |most: usize| match length.checked_sub(whole) {
                    None => Err(Refusal::in_block(13, number)),
                    Some(over) if over > most => Err(Refusal::new(15)),
                    Some(_) => Ok(row),
                };
                assert_eq!(checks(&packet), [1, 0].map(expected), "{form:?} of {length} bytes");
            }
        }
    }
}

/// Each place of a frame, reached before or not, and places above the block count.
#[test]
fn every_place() {
    for seed in 0..50 {
        let rng = &mut Seeded::new(seed);
        let profile = rng.pick(&Profile::MANY);
        let size = Size::new(rng.between(1, 6), rng.between(1, 6));
        let packet = Draft::make(rng, size, profile).packet();
        for place in (0..=size.blocks() + 2).chain(EXTREMES) {
            for allowed in [0, 1, 64, 65, 100, usize::MAX] {
                let answer = draw(rng, &packet, place, allowed);
                assert_eq!(answer.is_err(), place > size.blocks(), "{answer:?}");
            }
        }
    }
}

/// A film of one opcode, last in its chunk or with 01 behind it. The byte behind the chunk is a map
/// for one block, of a code whose data is as long as the packet in this body, if 0 or B to F is one.
fn film_of(kind: u8, version: u8, body: &[u8], last: bool) -> Vec<u8> {
    let code = match body.len().checked_sub(14) {
        Some(0) => 0x0,
        Some(1) => 0xE,
        Some(2) => 0xF,
        Some(4) => 0xD,
        Some(16) => 0xC,
        _ => 0xB,
    };
    let mut opcodes = vec![Opcode::new(kind, version, body.to_vec())];
    if !last {
        opcodes.push(Opcode::new(0x01, 0, Vec::new()));
    }
    let chunks = vec![Chunk { opcodes, ..Chunk::default() }];
    Film { size: Size::new(1, 1), stream: NO_STREAM, chunks, tail: vec![code] }.bytes()
}

/// A step at that opcode, with memory of any bytes.
fn lent(rng: &mut Seeded, film: &[u8], stream: usize) -> Start {
    let opened = open(film, stream).expect("a header");
    Start {
        state: State { position: 30, chunk_end: film.len() - 1, ..opened },
        palette: rng.bytes(768),
        picture_a: rng.bytes(64),
        picture_b: rng.bytes(64),
        place: 3,
        room: Vec::new(),
        words: [(); 3].map(|()| rng.words(64)),
        allowed: 312_000,
    }
}

/// Steps at that opcode: without size and map, with either, and with both, where the stores allowed
/// are enough for the block or too few.
fn starts(rng: &mut Seeded, film: &[u8], stream: usize) -> [Start; 5] {
    let opened = lent(rng, film, stream);
    let with = |state| Start { state, ..opened.clone() };
    let map = Some(Span { start: film.len() - 1, length: 1 });
    let sized = with(State { columns: 1, rows: 1, ..opened.state });
    let mapped = with(State { map, ..opened.state });
    let both = with(State { map, front: 1, unsent: true, ..sized.state });
    let enough = Start { place: 0, ..both };
    let too_few = Start { allowed: 10, ..enough.clone() };
    [opened, sized, mapped, enough, too_few]
}

/// The body of 0D that sets so many entries, the first ones.
fn groups(entries: usize) -> Vec<u8> {
    let group = |first: usize| {
        let ones = entries.saturating_sub(first).min(8);
        let mask = (0xFF_u16 >> (8 - ones)) as u8;
        [vec![mask], vec![7; 3 * ones]].concat()
    };
    (0..256).step_by(8).flat_map(group).collect()
}

/// A body for an opcode of this type, cut or filled up to this length where another is right.
fn made_body(rng: &mut Seeded, kind: u8, length: usize) -> Vec<u8> {
    let mut body = match kind {
        0x05 => [2_u16, 1, 0xFFFF, 0].map(u16::to_le_bytes).concat(),
        0x0B => vec![3, 2, 4, 200, 1, 56],
        0x0C => [0, (length.saturating_sub(4) / 3) as u16].map(u16::to_le_bytes).concat(),
        0x0D => groups(length.saturating_sub(32) / 3),
        _ => rng.bytes(length),
    };
    body.resize(length, 7);
    body
}

/// Which of 3, 4 and 5 an opcode meets by 01 and, where a stream of sound is chosen, by 02. The body
/// of 0C or 0D is one made for its length.
fn shape_number(chosen: bool, kind: u8, version: u8, length: usize, last: bool) -> Option<u8> {
    let is_length = match (kind, version) {
        (0x03, 0) if chosen => length == 8,
        (0x03, 1) if chosen => length == 10,
        (0x08, 0) if chosen => length >= 6,
        (0x09, 0) if chosen => length == 6,
        (0x03 | 0x08 | 0x09, _) if chosen => return Some(4),
        (0x00 | 0x01, _) if !last => return Some(3),
        (0x00 | 0x01, 0) => length == 0,
        (0x05 | 0x07, 0) => length == 4,
        (0x05 | 0x07, 1) | (0x0B, 0) => length == 6,
        (0x05, 2) => length == 8,
        (0x0C, 0) => length >= 4 && length % 3 == 1,
        (0x0D, 0) => length >= 32 && length % 3 == 2,
        (0x11, 0) => length >= 14,
        (0x0F, 0) | (0x02..=0x04 | 0x08..=0x0A | 0x12..=0x15, _) => true,
        _ => return Some(4),
    };
    (!is_length).then_some(5)
}

/// Asserts that a step comes to the same.
#[track_caller]
fn step(film: &[u8], start: &Start) -> (Walked, Start) {
    let [default, _] = same((start.state, film), |decoder, form| {
        let mut walk = start.clone();
        (decoder.step(form, film, &mut walk), walk)
    });
    default
}

/// The answers to steps at an opcode of this type, version and body length, with a body made for it
/// and one of any bytes.
fn answers(rng: &mut Seeded, stream: usize, kind: u8, version: u8, length: usize) -> Vec<Walked> {
    let mut answers = Vec::new();
    for (made, last) in [(true, true), (true, false), (false, true), (false, false)] {
        let body = if made { made_body(rng, kind, length) } else { rng.bytes(length) };
        let film = film_of(kind, version, &body, last);
        let expected = shape_number(stream < NO_STREAM, kind, version, length, last);
        for start in starts(rng, &film, stream) {
            let (answer, _) = step(&film, &start);
            answers.push(answer);
            let number = answer.err().map(|refusal| refusal.number);
            if made || ![0x0C, 0x0D].contains(&kind) {
                let of_shape = number.filter(|number| (3..=5).contains(number));
                assert_eq!(of_shape, expected, "type {kind}, version {version}, {length} bytes");
            }
        }
    }
    answers
}

/// Each of these types, in each version that one is taken in and in others, with each body length
/// that the types ask for and others: the numbers met, and with which lengths a frame was drawn.
fn opcodes(stream: usize, kinds: impl IntoIterator<Item = u8>) -> (BTreeSet<u8>, BTreeSet<usize>) {
    let rng = &mut Seeded::new(1);
    let (mut numbers, mut whole) = (BTreeSet::new(), BTreeSet::new());
    for kind in kinds {
        for version in [0, 1, 2, 3, 4, 255] {
            for length in (0..=40).chain([50, 56, 78, 79, 80, 772, 800]) {
                for answer in answers(rng, stream, kind, version, length) {
                    whole.extend(matches!(answer, Ok(Step::Whole(65, _))).then_some(length));
                    numbers.extend(answer.err().map(|refusal| refusal.number));
                }
            }
        }
    }
    (numbers, whole)
}

#[test]
fn every_opcode() {
    let (numbers, whole) = opcodes(NO_STREAM, 0..=255);
    assert_eq!(numbers, BTreeSet::from([3, 4, 5, 6, 7, 9, 13, 15]));
    // Behind 14 bytes as many as codes 0, E, F, D, C and B have, or one more than B has.
    assert_eq!(whole, BTreeSet::from([14, 15, 16, 18, 30, 78, 79]));
}

/// The opcodes of sound, where a stream is chosen. No step knows a format, so 17 is met, and not 18.
#[test]
fn every_opcode_of_sound() {
    let (numbers, whole) = opcodes(0, [0x03, 0x08, 0x09]);
    assert_eq!(numbers, BTreeSet::from([4, 5, 17]));
    assert_eq!(whole, BTreeSet::new());
}

/// Opcode 03 with every word of flags, in both versions.
#[test]
fn every_format() {
    let rng = &mut Seeded::new(1);
    let mut refused = 0;
    for version in [0, 1] {
        for flags in 0..=u16::MAX {
            let mut body = rng.bytes(8 + 2 * usize::from(version));
            body[2..4].copy_from_slice(&flags.to_le_bytes());
            let film = film_of(0x03, version, &body, true);
            let (answer, left) = step(&film, &lent(rng, &film, 0));
            let (stereo, wide, compressed) =
                (flags & 1 != 0, flags & 2 != 0, version == 1 && flags & 4 != 0);
            if compressed && !wide {
                assert_eq!(answer, Err(Refusal::new(17)));
                refused += 1;
            } else {
                let format = Sound { has_format: true, stereo, wide, compressed, ..Sound::new(0) };
                assert_eq!((answer, left.state.sound), (Ok(Step::Taken(0, 0)), format));
            }
        }
    }
    // Bit 2 without bit 1.
    assert_eq!(refused, 1 << 14);
}

/// The sound before any 03, and of each format: where it is compressed, at its first packet and
/// later, with any last samples.
fn sounds(rng: &mut Seeded) -> Vec<Sound> {
    let mut sounds = vec![Sound::new(0)];
    for Format { stereo, wide, compressed } in Format::ALL {
        for begun in [false, true] {
            let (left, right) = (rng.number() as u16, rng.number() as u16);
            let format = Sound { stereo, wide, compressed, begun, left, right, ..Sound::new(0) };
            sounds.push(Sound { has_format: true, ..format });
        }
    }
    sounds
}

/// Opcodes 08 and 09 that count few samples, with every length of data up to some bytes too many, in
/// each format and before any, in rooms that are enough or a byte short or longer; also with masks
/// that lack the stream's bit.
#[test]
fn every_count() {
    let rng = &mut Seeded::new(1);
    let (mut numbers, mut written) = (BTreeSet::new(), BTreeSet::new());
    for sound in sounds(rng) {
        for (kind, mask) in [(0x08, 0xFFFF), (0x08, 0xFFFE), (0x09, 0x0001), (0x09, 0x0000)] {
            for (count, length) in (0..=9_u16).flat_map(|count| (0..=22).map(move |l| (count, l))) {
                let length = if kind == 0x09 { 0 } else { length };
                let words = [rng.number() as u16, mask, count].map(u16::to_le_bytes).concat();
                let film = film_of(kind, 0, &[words, rng.bytes(length)].concat(), true);
                let opened = lent(rng, &film, 0);
                let state = State { sound, ..opened.state };
                let bytes = usize::from(count) * (1 + usize::from(sound.wide));
                for room in [bytes.saturating_sub(1), bytes, bytes + 3] {
                    let room = rng.bytes(room);
                    let (answer, _) = step(&film, &Start { state, room, ..opened.clone() });
                    match answer {
                        Ok(Step::Taken(0, bytes)) => _ = written.insert((kind, bytes)),
                        other => numbers.extend(other.err().map(|refusal| refusal.number)),
                    }
                    assert!(mask & 1 == 1 || answer == Ok(Step::Taken(0, 0)), "{answer:?}");
                }
            }
        }
    }
    assert_eq!(numbers, BTreeSet::from([17, 18, 19]));
    let bytes = |of| written.iter().filter(|&&(kind, _)| kind == of).count();
    assert_eq!((bytes(0x08), bytes(0x09)), (15, 15), "{written:?}");
}

/// Each byte of compressed data from each of many last samples, on either channel.
#[test]
fn every_step() {
    let rng = &mut Seeded::new(1);
    let samples = (0..=u16::MAX).step_by(251).chain([0x7FFF, 0x8000, u16::MAX]);
    for (left, byte) in samples.flat_map(|sample| (0..=255).map(move |byte| (sample, byte))) {
        let right = rng.number() as u16;
        let words = [0, 1, 4].map(u16::to_le_bytes).concat();
        let film = film_of(0x08, 0, &[words, vec![byte, byte, byte, !byte]].concat(), true);
        let opened = lent(rng, &film, 0);
        let format = Sound { has_format: true, wide: true, compressed: true, ..Sound::new(0) };
        let sound = Sound { stereo: true, begun: true, left, right, ..format };
        let start = Start { state: State { sound, ..opened.state }, room: rng.bytes(8), ..opened };
        assert_eq!(step(&film, &start).0, Ok(Step::Taken(0, 8)));
    }
}

/// 0C from each start, with no entry, one and all. Start plus count is at most 256 also where there
/// is no entry, so a start above 256 is refused 7 then, too.
#[test]
fn every_start() {
    let rng = &mut Seeded::new(1);
    for count in [0, 1, 256] {
        for start in 0..=u16::MAX {
            let words = [start, count].map(u16::to_le_bytes).concat();
            let (start, count) = (usize::from(start), usize::from(count));
            let film = film_of(0x0C, 0, &[words, vec![7; 3 * count]].concat(), true);
            let found = lent(rng, &film, NO_STREAM);
            let mut expected = found.clone();
            let taken = start + count <= 256;
            if taken {
                expected.state.position = expected.state.chunk_end;
                expected.palette[3 * start..][..3 * count].fill(7);
            }
            let answer = if taken { Ok(Step::Taken(3 * count, 0)) } else { Err(Refusal::new(7)) };
            assert!(step(&film, &found) == (answer, expected), "{count} from {start}");
        }
    }
}
