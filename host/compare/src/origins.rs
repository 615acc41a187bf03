//! Where pixels come from (02, W9): two programs name the same byte or pixel, and it holds the value
//! that drawing gives the pixel.

use crate::decoder::{Decoder, Proved, Second};
use maker::packet_damage::{damaged, Damage};
use maker::{packet, Packet, Seeded};
use reference::{CallForm, Origin, Refusal, Traced};

/// A program that tells where pixels come from.
pub trait Tracer {
    /// The pixel at (x, y) of a packet's picture, which is drawn on `back`.
    fn origin(
        &self,
        packet: &Packet,
        front: &[u8],
        back: &[u8],
        position: (usize, usize),
    ) -> Result<Traced, Refusal>;
}

impl Tracer for Proved {
    fn origin(
        &self,
        packet: &Packet,
        front: &[u8],
        back: &[u8],
        (x, y): (usize, usize),
    ) -> Result<Traced, Refusal> {
        let Packet { columns, rows, map, data } = packet;
        let found = mve::origin(*columns, *rows, map, data, front, back, x, y);
        let mve::Traced { block, code, origin } =
            found.map_err(|refusal| Refusal { number: refusal.number(), block: refusal.block })?;
        let origin = match origin {
            mve::Origin::Byte(index) => Origin::Byte(index),
            mve::Origin::Front { x, y } => Origin::Front((x, y)),
            mve::Origin::Back { x, y } => Origin::Back((x, y)),
            mve::Origin::New { x, y } => Origin::New((x, y)),
        };
        Ok(Traced { block, code, origin })
    }
}

impl Tracer for Second {
    fn origin(
        &self,
        packet: &Packet,
        front: &[u8],
        back: &[u8],
        (x, y): (usize, usize),
    ) -> Result<Traced, Refusal> {
        let Packet { columns, rows, map, data } = packet;
        reference::origin(*columns, *rows, map, data, front, back, x, y)
    }
}

/// A packet with the pictures before it, and positions to ask for.
#[derive(Clone, Debug)]
pub struct Question {
    /// The packet, valid or not.
    pub packet: Packet,
    /// The shown picture.
    pub front: Vec<u8>,
    /// The picture that is drawn on.
    pub back: Vec<u8>,
    /// Inside the picture or not.
    pub positions: Vec<(usize, usize)>,
}

/// The question of this number: a small packet, half of them damaged; pictures that now and then are too
/// short; every pixel, and positions around the picture.
pub fn question(number: u64) -> Question {
    let rng = &mut Seeded::new(number);
    let (draft, damage) = (packet::small(rng), rng.pick(&Damage::ALL));
    let packet = if rng.one_in(2) { damaged(rng, &draft, damage) } else { draft.packet() };
    let length = draft.size.pixels();
    let [front, back] = [(); 2].map(|()| match rng.below(16) {
        0 => length - 1,
        1 => length + rng.below(70),
        _ => length,
    });
    let (front, back) = (rng.bytes(front), rng.bytes(back));
    let (width, height) = (draft.size.width(), draft.size.height());
    let inside = (0..height).flat_map(|y| (0..width).map(move |x| (x, y)));
    let outside = [(width, 0), (0, height), (width, height), (usize::MAX, 0), (0, usize::MAX)];
    Question { packet, front, back, positions: inside.chain(outside).collect() }
}

/// What differs, of which pixel.
#[derive(Clone, Debug, PartialEq, Eq)]
pub struct Differs {
    /// The position asked for.
    pub position: (usize, usize),
    /// Both accounts.
    pub accounts: [String; 2],
}

/// Compares two programs on a question; their answers, one for each position.
pub fn compare(
    first: &dyn Tracer,
    second: &dyn Tracer,
    question: &Question,
) -> Result<Vec<Result<Traced, Refusal>>, Box<Differs>> {
    let Question { packet, front, back, positions } = question;
    let new = drawn(question);
    let answers = positions.iter().map(|&position| {
        let differs = |accounts| Err(Box::new(Differs { position, accounts }));
        let ask = |program: &dyn Tracer| program.origin(packet, front, back, position);
        let (one, other) = (ask(first), ask(second));
        if one != other {
            return differs([format!("{one:?}"), format!("{other:?}")]);
        }
        if let (Ok(traced), Some(new)) = (one, &new) {
            let (x, y) = position;
            let pixel = new[y * 8 * packet.columns + x];
            let named = value(question, new, traced.origin);
            if named != Some(pixel) {
                return differs([format!("{traced:?} holds {named:?}"), format!("drawn {pixel}")]);
            }
        }
        Ok(one)
    });
    answers.collect()
}

/// The picture that the packet gives, where it is accepted.
fn drawn(question: &Question) -> Option<Vec<u8>> {
    let Question { packet, front, back, .. } = question;
    let (mut front, mut back, mut place) = (front.clone(), back.clone(), 0);
    let form = CallForm::Default;
    let answer = Second.draw(form, packet, &mut front, &mut back, &mut place, usize::MAX);
    answer.ok().map(|_| back)
}

/// What stands at an origin; none outside.
fn value(question: &Question, new: &[u8], origin: Origin) -> Option<u8> {
    let Question { packet, front, back, .. } = question;
    let pixel = |picture: &[u8], (x, y): (usize, usize)| {
        let is_inside = x < 8 * packet.columns && y < 8 * packet.rows;
        is_inside.then(|| picture[y * 8 * packet.columns + x])
    };
    match origin {
        Origin::Byte(index) => packet.data.get(index).copied(),
        Origin::Front(at) => pixel(front, at),
        Origin::Back(at) => pixel(back, at),
        Origin::New(at) => pixel(new, at),
    }
}
