//! Damage to valid packets of films with true colour (02, W7).

use crate::form;
use crate::packet::Packet;
use crate::packet_damage::{flip, BAD_COLUMNS, BAD_ROWS};
use crate::seeded::Seeded;
use crate::words::{WordBlock, WordDraft};

/// Kinds of damage. The first ones change bytes blindly, and the packet may stay valid; from `NoWord` on each
/// is made for one number of refusal.
#[derive(Clone, Copy, Debug, PartialEq, Eq)]
pub enum Damage {
    /// Bits of some bytes turned, of the offset word too.
    FlipData,
    /// Bits of some map bytes turned.
    FlipMap,
    /// A byte more between others.
    InsertData,
    /// A byte less between others.
    RemoveData,
    /// A block gets another code and keeps its data.
    ChangeCode,
    /// The second part begins a few bytes earlier or later.
    MoveOffset,
    /// Fewer bytes than the offset word has: 20.
    NoWord,
    /// An offset of 0 or 1: 20.
    OffsetInWord,
    /// An offset past the packet's end: 20.
    OffsetPastEnd,
    /// The first part cut: 13, if there was any.
    CutFirst,
    /// The second part cut: 13, if there was any.
    CutSecond,
    /// Bytes left over in the first part: 15.
    LeaveFirst,
    /// Two bytes or more left over in the second part: 15.
    LeaveSecond,
    /// Bytes left over in both: 15.
    LeaveBoth,
    /// A copy that leaves the frame: 14.
    CopyOutside,
    /// A map byte too few: 10.
    ShortMap,
    /// Map bytes too many: 10.
    LongMap,
    /// A number of columns that is not taken: 6.
    BadColumns,
    /// A number of rows that is not taken: 6.
    BadRows,
}

impl Damage {
    /// Every kind.
    pub const ALL: [Damage; 19] = [
        Damage::FlipData,
        Damage::FlipMap,
        Damage::InsertData,
        Damage::RemoveData,
        Damage::ChangeCode,
        Damage::MoveOffset,
        Damage::NoWord,
        Damage::OffsetInWord,
        Damage::OffsetPastEnd,
        Damage::CutFirst,
        Damage::CutSecond,
        Damage::LeaveFirst,
        Damage::LeaveSecond,
        Damage::LeaveBoth,
        Damage::CopyOutside,
        Damage::ShortMap,
        Damage::LongMap,
        Damage::BadColumns,
        Damage::BadRows,
    ];

    /// The kinds that are made for a number.
    pub const NUMBERED: [Damage; 13] = [
        Damage::NoWord,
        Damage::OffsetInWord,
        Damage::OffsetPastEnd,
        Damage::CutFirst,
        Damage::CutSecond,
        Damage::LeaveFirst,
        Damage::LeaveSecond,
        Damage::LeaveBoth,
        Damage::CopyOutside,
        Damage::ShortMap,
        Damage::LongMap,
        Damage::BadColumns,
        Damage::BadRows,
    ];

    /// The number that a kind is made for.
    pub fn number(self) -> Option<u8> {
        match self {
            Damage::NoWord | Damage::OffsetInWord | Damage::OffsetPastEnd => Some(20),
            Damage::CutFirst | Damage::CutSecond => Some(13),
            Damage::LeaveFirst | Damage::LeaveSecond | Damage::LeaveBoth => Some(15),
            Damage::CopyOutside => Some(14),
            Damage::ShortMap | Damage::LongMap => Some(10),
            Damage::BadColumns | Damage::BadRows => Some(6),
            _ => None,
        }
    }

    /// Whether there is something to damage: a part without a byte cannot be cut.
    pub fn is_fit(self, draft: &WordDraft) -> bool {
        match self {
            Damage::CutFirst => !draft.first().is_empty(),
            Damage::CutSecond => !draft.second().is_empty(),
            _ => true,
        }
    }
}

/// A damaged copy of a valid packet.
pub fn damaged(rng: &mut Seeded, draft: &WordDraft, damage: Damage) -> Packet {
    let mut packet = draft.packet();
    let (first, second) = (draft.first(), draft.second());
    match damage {
        Damage::FlipData => flip(rng, &mut packet.data),
        Damage::FlipMap => flip(rng, &mut packet.map),
        Damage::InsertData => {
            let at = rng.below(packet.data.len() + 1);
            packet.data.insert(at, rng.byte());
        }
        Damage::RemoveData => {
            let at = rng.below(packet.data.len());
            packet.data.remove(at);
        }
        Damage::ChangeCode => {
            let mut changed = draft.clone();
            let number = rng.below(draft.blocks.len());
            changed.blocks[number].code = rng.byte() & 0x0F;
            return changed.packet();
        }
        Damage::MoveOffset => {
            let way = rng.pick(&[-3, -2, -1, 1, 2, 3]);
            let offset = (2 + first.len()).saturating_add_signed(way);
            set_offset(&mut packet, offset);
        }
        Damage::NoWord => packet.data.truncate(rng.below(2)),
        Damage::OffsetInWord => set_offset(&mut packet, rng.below(2)),
        Damage::OffsetPastEnd => {
            let past = packet.data.len() + 1;
            let far = rng.between(past, 0xFFFF);
            set_offset(&mut packet, rng.pick(&[past, past, past + 1, far, 0xFFFF]));
        }
        Damage::CutFirst => {
            let cut = rng.between(1, 3).min(first.len());
            let second = [second, draft.over.clone()].concat();
            return draft.packet_of(&first[..first.len() - cut], &second);
        }
        Damage::CutSecond => {
            let cut = rng.between(1, 3).min(second.len());
            return draft.packet_of(&first, &second[..second.len() - cut]);
        }
        Damage::LeaveFirst => {
            let over = any_over(rng, 1);
            return draft
                .packet_of(&[first, over].concat(), &[second, draft.over.clone()].concat());
        }
        Damage::LeaveSecond => {
            let over = any_over(rng, 2);
            return draft.packet_of(&first, &[second, over].concat());
        }
        Damage::LeaveBoth => {
            let (over, more) = (any_over(rng, 1), any_over(rng, 1));
            return draft.packet_of(&[first, over].concat(), &[second, more].concat());
        }
        Damage::CopyOutside => return with_outside_copy(rng, draft),
        Damage::ShortMap => packet.map.truncate(packet.map.len() - 1),
        Damage::LongMap => {
            let length = rng.between(1, 3);
            packet.map.extend(rng.bytes(length));
        }
        Damage::BadColumns => packet.columns = rng.pick(&BAD_COLUMNS),
        Damage::BadRows => packet.rows = rng.pick(&BAD_ROWS),
    }
    packet
}

fn set_offset(packet: &mut Packet, offset: usize) {
    packet.data[..2].copy_from_slice(&(offset as u16).to_le_bytes());
}

/// So many bytes, or a few more, or many.
fn any_over(rng: &mut Seeded, least: usize) -> Vec<u8> {
    let count = if rng.one_in(4) { rng.between(least, 300) } else { rng.between(least, least + 1) };
    rng.bytes(count)
}

/// A block of the frame's rim is copied from outside, by code 2 to 6.
fn with_outside_copy(rng: &mut Seeded, draft: &WordDraft) -> Packet {
    let mut changed = draft.clone();
    let number = form::rim_block(rng, draft.size);
    if let Some(form::Block { code, data }) = form::outside_copy(rng, draft.size, number) {
        let far = rng.pick(&[0x5, 0x6]);
        changed.blocks[number] = match code {
            0x5 => WordBlock { code: far, first: data, second: Vec::new() },
            _ => WordBlock { code, first: Vec::new(), second: data },
        };
    }
    changed.packet()
}
