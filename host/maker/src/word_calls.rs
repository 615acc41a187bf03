//! Lists of drawing calls for one packet with true colour: any allowances, cuts, calls of both forms, and
//! refused calls between (01, "Book of demand 3"; 02, W7).

use crate::calls::allowance;
use crate::packet::Packet;
use crate::seeded::Seeded;
use crate::size::Size;
use crate::word_damage::{self, Damage};
use crate::words::{WordDraft, WordProfile, LONG};
use reference::CallForm;

/// One drawing call.
#[derive(Clone, Debug)]
pub struct WordCall {
    /// Its form.
    pub form: CallForm,
    /// The packet given.
    pub packet: Packet,
    /// The shown picture given.
    pub last: Vec<u16>,
    /// The picture before it.
    pub oldest: Vec<u16>,
    /// Stores allowed.
    pub allowed: usize,
    /// Where the call is cut, if it is: it makes so many stores and answers nobody.
    pub cut: Option<usize>,
    /// Whether the call is made to be refused.
    pub refused: bool,
}

impl WordCall {
    /// Stores that the call is fed to the book with: a call cut at j is one allowed j.
    pub fn stores_fed(&self) -> usize {
        self.cut.unwrap_or(self.allowed)
    }
}

/// A list of calls and the picture that it finds. The accepted calls have one packet and the same older
/// pictures; the place is the list's own and starts at 0.
#[derive(Clone, Debug)]
pub struct WordCallList {
    /// The picture drawn on.
    pub new: Vec<u16>,
    /// The calls in order.
    pub calls: Vec<WordCall>,
}

/// A list of up to 40 calls for a valid packet, padded or not; if it is padded, strict calls are refused.
/// Words that are lent have the high bit or not. Most lists end with the frame whole; calls then go on now
/// and then.
pub fn list(rng: &mut Seeded, size: Size, profile: WordProfile) -> WordCallList {
    let draft = WordDraft::make(rng, size, profile, LONG).or_padded(rng);
    let packet = draft.packet();
    let spare = rng.pick(&[0, 0, 3]);
    let [last, oldest, new] = [(); 3].map(|()| rng.words(size.pixels() + spare));
    let mut calls = Vec::new();
    let mut place = 0;
    for _ in 0..rng.between(1, 40) {
        if rng.one_in(4) {
            calls.extend(refused_call(rng, &draft, [&last, &oldest], new.len(), place));
        }
        let allowed = allowance(rng, size.blocks());
        let form = rng.pick(&CallForm::ALL);
        let refused = form == CallForm::Strict && !draft.over.is_empty();
        let most = if refused { 0 } else { allowed.min(draft.stores_from(place)) };
        let cut = rng.one_in(5).then(|| rng.below(most + 1));
        let (packet, last, oldest) = (packet.clone(), last.clone(), oldest.clone());
        let call = WordCall { form, packet, last, oldest, allowed, cut, refused };
        if !refused {
            place = draft.place_after(place, call.stores_fed());
        }
        calls.push(call);
        if place == size.blocks() && !rng.one_in(4) {
            break;
        }
    }
    WordCallList { new, calls }
}

/// A call that is refused at this place, with another packet, map, size or older picture. `None` where the
/// kind chosen does not exist for this packet.
fn refused_call(
    rng: &mut Seeded,
    draft: &WordDraft,
    older: [&[u16]; 2],
    new: usize,
    place: usize,
) -> Option<WordCall> {
    let [mut last, mut oldest] = older.map(<[u16]>::to_vec);
    let mut form = rng.pick(&CallForm::ALL);
    let packet = match rng.below(10) {
        0 => {
            last.truncate(draft.size.pixels() - 1);
            draft.packet()
        }
        1 => {
            oldest.truncate(draft.size.pixels() - 1);
            draft.packet()
        }
        2 => larger_packet(rng, draft.size, new)?,
        3 => smaller_packet(rng, place)?,
        4 => {
            form = CallForm::Strict;
            draft.clone().with_over(rng, 1).packet()
        }
        _ => {
            let kind = rng.pick(&Damage::NUMBERED);
            if !kind.is_fit(draft) {
                return None;
            }
            word_damage::damaged(rng, draft, kind)
        }
    };
    let allowed = allowance(rng, draft.size.blocks());
    Some(WordCall { form, packet, last, oldest, allowed, cut: None, refused: true })
}

/// A valid packet of a larger frame than the picture drawn on holds: 8.
fn larger_packet(rng: &mut Seeded, size: Size, new: usize) -> Option<Packet> {
    let larger = Size::new((size.columns + 1).min(80), (size.rows + 1).min(60));
    if larger.pixels() <= new {
        return None;
    }
    Some(WordDraft::make(rng, larger, WordProfile::Light, LONG).packet())
}

/// A valid packet of fewer blocks than the place has passed: 11.
fn smaller_packet(rng: &mut Seeded, place: usize) -> Option<Packet> {
    if place < 2 {
        return None;
    }
    let columns = rng.between(1, (place - 1).min(80));
    Some(WordDraft::make(rng, Size::new(columns, 1), WordProfile::Light, LONG).packet())
}
