//! Frames of one's own (02, W10): two programs give the same answer and leave the same bytes, in rooms that
//! are long enough and too short; and map and packet give the wanted picture again, by both decoders, at
//! once and in pieces.

use crate::decoder::{Proved, Second};
use maker::wanted::{with_data, Look, Wanted};
use maker::{Seeded, Size};
use reference::encode::{encode, Encoded, FRONT, MOST};
use reference::{draw_as, CallForm, Refusal};

/// Map and packet of a program: bytes of the map, and of the body.
pub type Answer = Result<(usize, usize), Refusal>;

/// What a program is given beside the rooms.
#[derive(Clone, Debug)]
pub struct Task {
    /// Blocks in a row.
    pub columns: usize,
    /// Rows of blocks.
    pub rows: usize,
    /// The wanted picture.
    pub wanted: Vec<u8>,
    /// The picture shown.
    pub front: Vec<u8>,
    /// The picture drawn on.
    pub back: Vec<u8>,
}

impl From<Wanted> for Task {
    fn from(wanted: Wanted) -> Task {
        let Wanted { size, wanted, front, back } = wanted;
        Task { columns: size.columns, rows: size.rows, wanted, front, back }
    }
}

/// A program that encodes.
pub trait Encoder {
    /// Map and body, each to its room.
    fn encode(&self, task: &Task, map: &mut [u8], body: &mut [u8]) -> Answer;
}

impl Encoder for Proved {
    fn encode(&self, task: &Task, map: &mut [u8], body: &mut [u8]) -> Answer {
        let Task { columns, rows, wanted, front, back } = task;
        let told = mve::encode(*columns, *rows, wanted, front, back, map, body)
            .map_err(|refusal| Refusal { number: refusal.number(), block: refusal.block })?;
        Ok((told.map_length, told.body_length))
    }
}

impl Encoder for Second {
    fn encode(&self, task: &Task, map: &mut [u8], body: &mut [u8]) -> Answer {
        let made = second(task, map.len(), body.len())?;
        map[..made.map.len()].copy_from_slice(&made.map);
        body[..made.body.len()].copy_from_slice(&made.body);
        Ok((made.map.len(), made.body.len()))
    }
}

fn second(task: &Task, map_room: usize, body_room: usize) -> Result<Encoded, Refusal> {
    let Task { columns, rows, wanted, front, back } = task;
    encode(*columns, *rows, wanted, front, back, map_room, body_room)
}

/// What is wrong with a task, by construction.
#[derive(Clone, Copy, Debug, PartialEq, Eq, PartialOrd, Ord)]
pub enum Fault {
    /// Nothing.
    Nothing,
    /// A number of columns or rows that no picture has; the pictures are empty.
    Size,
    /// A picture of the three that is a byte too short; the packet would be too long.
    Short(usize),
    /// So many bytes more than a body can have; below 1 it is taken.
    Length(isize),
}

/// A task, and rooms for map and body.
#[derive(Clone, Debug)]
pub struct Question {
    /// What is wrong with it.
    pub fault: Fault,
    /// The task.
    pub task: Task,
    /// Bytes of the rooms.
    pub rooms: Vec<(usize, usize)>,
}

/// Of so many questions one is about a size, one about short pictures and one about the longest body.
const FAULTS: u64 = 32;

/// Bodies above this are asked for in fewer rooms.
const LONG: usize = 60_000;

/// The question of this number.
pub fn question(number: u64) -> Question {
    let rng = &mut Seeded::new(number);
    let (fault, task) = match number % FAULTS {
        0 => (Fault::Size, wrong_size(rng)),
        1 => {
            let which = rng.below(3);
            (Fault::Short(which), too_short(which))
        }
        2 => {
            let over = rng.below(6) as isize - 3;
            let solids = (MOST - FRONT - 64 * 1023).checked_add_signed(over);
            (Fault::Length(over), with_data(1023, solids.expect("some blocks")).into())
        }
        _ => {
            let look = rng.pick(&Look::ALL);
            let size = Size::small(rng);
            (Fault::Nothing, look.make(rng, size).into())
        }
    };
    let rooms = rooms(rng, &task);
    Question { fault, task, rooms }
}

/// A size just outside the limits, or far.
fn wrong_size(rng: &mut Seeded) -> Task {
    let (columns, rows) = rng.pick(&[
        (0, 1),
        (1, 0),
        (0, 0),
        (81, 1),
        (1, 61),
        (81, 61),
        (usize::MAX, 1),
        (1, usize::MAX),
        ((1 << 32) + 1, 1),
        ((1 << 58) + 1, (1 << 58) + 1),
    ]);
    let long = rng.pick(&[0, 64, 64 * 81]);
    let [wanted, front, back] = [0, 1, 2].map(|of| vec![of; long]);
    Task { columns, rows, wanted, front, back }
}

/// A picture a byte too short, of a task whose packet is too long.
fn too_short(which: usize) -> Task {
    let mut task: Task = with_data(1025, 0).into();
    let pictures = [&mut task.wanted, &mut task.front, &mut task.back];
    pictures.into_iter().nth(which).expect("one of three").pop();
    task
}

/// Rooms just long enough, longer and shorter; one that a test without the 14 bytes would take.
fn rooms(rng: &mut Seeded, task: &Task) -> Vec<(usize, usize)> {
    match second(task, usize::MAX, usize::MAX) {
        Err(_) => vec![(0, 0), (mve::MAP_BYTES, mve::BODY_BYTES)],
        Ok(Encoded { map, body }) => {
            let (map, body) = (map.len(), body.len());
            let more = (map + rng.between(1, 9), body + rng.between(1, 40));
            let few = (rng.below(map), rng.below(body));
            let exact = [(map, body), (map, body - 1), (map, body - FRONT)];
            let others = [(map - 1, body), more, few];
            let is_long = body > LONG; // enough of the time goes into these
            exact.into_iter().chain(others.into_iter().filter(|_| !is_long)).collect()
        }
    }
}

/// What differs, in which rooms.
#[derive(Clone, Debug, PartialEq, Eq)]
pub struct Differs {
    /// Bytes of both rooms.
    pub rooms: (usize, usize),
    /// Both accounts.
    pub accounts: [String; 2],
}

/// What a program tells, and what it leaves in rooms that held other bytes before.
type Left = (Answer, Vec<u8>, Vec<u8>);

fn left(program: &dyn Encoder, task: &Task, (map, body): (usize, usize)) -> Left {
    let mut map: Vec<u8> = (0..map).map(|i| (5 * i + 3) as u8).collect();
    let mut body: Vec<u8> = (0..body).map(|i| (7 * i + 1) as u8).collect();
    let answer = program.encode(task, &mut map, &mut body);
    (answer, map, body)
}

/// Map and packet that were made.
#[derive(Clone, Debug, PartialEq, Eq)]
pub struct Made {
    /// The map.
    pub map: Vec<u8>,
    /// The packet, without what stands in front of it.
    pub packet: Vec<u8>,
}

/// Compares two programs on a question; what they answer, one for each pair of rooms.
pub fn compare(
    first: &dyn Encoder,
    other: &dyn Encoder,
    question: &Question,
) -> Result<Vec<Result<Made, Refusal>>, Box<Differs>> {
    let Question { task, rooms, .. } = question;
    let answers = rooms.iter().map(|&rooms| {
        let differs = |accounts| Err(Box::new(Differs { rooms, accounts }));
        let [one, other] = [first, other].map(|program| left(program, task, rooms));
        if one != other {
            return differs([format!("{one:?}"), format!("{other:?}")]);
        }
        let (answer, map, body) = one;
        let (map_length, body_length) = match answer {
            Ok(lengths) => lengths,
            Err(refusal) => return Ok(Err(refusal)),
        };
        let map = map[..map_length].to_vec();
        let made = Made { map, packet: body[FRONT..body_length].to_vec() };
        match wrong_picture(task, &made) {
            Some(how) => differs([how.to_owned(), format!("{made:?}")]),
            None => Ok(Ok(made)),
        }
    });
    answers.collect()
}

/// Stores of a call that draws a piece.
const PIECE: usize = 1000;

/// How the pictures of both decoders, drawn at once and in pieces, differ from the wanted one and from what
/// back has beyond it; none where they do not.
fn wrong_picture(task: &Task, made: &Made) -> Option<&'static str> {
    let Task { columns, rows, wanted, front, back } = task;
    let Made { map, packet } = made;
    let pixels = 64 * columns * rows;
    let expected = [&wanted[..pixels], &back[pixels..]].concat();
    let mut drawn = back.clone();
    let by_proved =
        mve::draw_strict(*columns, *rows, map, packet, front, &mut drawn, &mut 0, mve::ALL_STORES);
    if by_proved.is_err() || drawn != expected {
        return Some("drawn by the proved library");
    }
    let (mut drawn, mut place) = (back.clone(), 0);
    while place < columns * rows {
        let form = CallForm::Strict;
        let told =
            draw_as(form, *columns, *rows, map, packet, front, &mut drawn, &mut place, PIECE);
        if told.is_err() {
            return Some("drawn in pieces by the second decoder");
        }
    }
    (drawn != expected).then_some("drawn in pieces by the second decoder")
}
