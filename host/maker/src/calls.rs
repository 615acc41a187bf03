//! Lists of drawing calls for one packet: any allowances, cuts, calls of both forms, and refused calls
//! between (01, "Book of demand 3"; the forms: 02, W6).

use crate::packet::{Draft, Packet, Profile};
use crate::packet_damage::{self, Damage};
use crate::seeded::Seeded;
use crate::size::Size;
use reference::CallForm;

/// Stores of the largest frame.
const ALL_STORES: usize = 312_000;

/// One drawing call.
#[derive(Clone, Debug)]
pub struct Call {
    /// Its form.
    pub form: CallForm,
    /// The packet given.
    pub packet: Packet,
    /// The shown picture given.
    pub front: Vec<u8>,
    /// Stores allowed.
    pub allowed: usize,
    /// Where the call is cut, if it is: it makes so many stores and answers nobody.
    pub cut: Option<usize>,
    /// Whether the call is made to be refused.
    pub refused: bool,
}

impl Call {
    /// Stores that the call is fed to the book with: a call cut at j is one allowed j.
    pub fn stores_fed(&self) -> usize {
        self.cut.unwrap_or(self.allowed)
    }
}

/// A list of calls and the picture that it finds. The accepted calls have one packet and one
/// shown picture; the place is the list's own and starts at 0.
#[derive(Clone, Debug)]
pub struct CallList {
    /// The picture drawn on.
    pub back: Vec<u8>,
    /// The calls in order.
    pub calls: Vec<Call>,
}

/// A list of up to 40 calls for a valid packet, padded or not; if it is padded, strict calls are
/// refused. Most lists end with the frame whole; calls then go on now and then.
pub fn list(rng: &mut Seeded, size: Size, profile: Profile) -> CallList {
    let draft = Draft::make(rng, size, profile).or_strip(rng).or_padded(rng);
    let packet = draft.packet();
    let spare = rng.pick(&[0, 0, 3]);
    let front = rng.bytes(size.pixels() + spare);
    let back = rng.bytes(size.pixels() + spare);
    let mut calls = Vec::new();
    let mut place = 0;
    for _ in 0..rng.between(1, 40) {
        if rng.one_in(4) {
            calls.extend(refused_call(rng, &draft, &front, back.len(), place));
        }
        let allowed = allowance(rng, size.blocks());
        let form = rng.pick(&CallForm::ALL);
        let refused = form == CallForm::Strict && !draft.over.is_empty();
        let most = if refused { 0 } else { allowed.min(draft.stores_from(place)) };
        let cut = rng.one_in(5).then(|| rng.below(most + 1));
        let (packet, front) = (packet.clone(), front.clone());
        let call = Call { form, packet, front, allowed, cut, refused };
        if !refused {
            place = draft.place_after(place, call.stores_fed());
        }
        calls.push(call);
        if place == size.blocks() && !rng.one_in(4) {
            break;
        }
    }
    CallList { back, calls }
}

/// A number of stores to allow: none, few, about one block's, any, all.
pub fn allowance(rng: &mut Seeded, blocks: usize) -> usize {
    match rng.below(10) {
        0 => 0,
        1 => 1,
        2..=5 => rng.between(63, 66),
        6 | 7 => rng.below(65 * blocks + 2),
        _ => rng.pick(&[ALL_STORES, ALL_STORES, usize::MAX]),
    }
}

/// A call that is refused at this place, with another packet, map, size or shown picture. `None`
/// where the kind chosen does not exist for this packet.
fn refused_call(
    rng: &mut Seeded,
    draft: &Draft,
    front: &[u8],
    back: usize,
    place: usize,
) -> Option<Call> {
    let mut front = front.to_vec();
    let mut form = rng.pick(&CallForm::ALL);
    let packet = match rng.below(9) {
        0 => {
            front.truncate(draft.size.pixels() - 1);
            draft.packet()
        }
        1 => larger_packet(rng, draft.size, back)?,
        2 | 3 => smaller_packet(rng, place)?,
        4 => {
            form = CallForm::Strict;
            draft.clone().with_over(rng, 1).packet()
        }
        _ => {
            let kind = rng.pick(&[
                Damage::LeaveOver,
                Damage::CutData,
                Damage::CodeSix,
                Damage::CopyOutside,
                Damage::ShortMap,
                Damage::LongMap,
                Damage::BadColumns,
                Damage::BadRows,
            ]);
            if kind == Damage::CutData && draft.data_length() == 0 {
                return None;
            }
            packet_damage::damaged(rng, draft, kind)
        }
    };
    let allowed = allowance(rng, draft.size.blocks());
    Some(Call { form, packet, front, allowed, cut: None, refused: true })
}

/// A valid packet of a larger frame than the picture drawn on holds: 8.
fn larger_packet(rng: &mut Seeded, size: Size, back: usize) -> Option<Packet> {
    let larger = Size::new((size.columns + 1).min(80), (size.rows + 1).min(60));
    if larger.pixels() <= back {
        return None;
    }
    Some(Draft::make(rng, larger, Profile::Light).packet())
}

/// A valid packet of fewer blocks than the place has passed: 11.
fn smaller_packet(rng: &mut Seeded, place: usize) -> Option<Packet> {
    if place < 2 {
        return None;
    }
    let columns = rng.between(1, (place - 1).min(80));
    Some(Draft::make(rng, Size::new(columns, 1), Profile::Light).packet())
}
