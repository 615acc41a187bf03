//! Damage to valid packets.

use crate::form;
use crate::packet::{Draft, Packet};
use crate::seeded::Seeded;

/// Kinds of damage. The first ones change bytes blindly, and the packet may stay valid; from
/// `LeaveOver` on each is made for one number of refusal.
#[derive(Clone, Copy, Debug, PartialEq, Eq)]
pub enum Damage {
    /// Bits of some data bytes turned.
    FlipData,
    /// Bits of some map bytes turned.
    FlipMap,
    /// A data byte more between others.
    InsertData,
    /// A data byte less between others.
    RemoveData,
    /// A block gets another code and keeps its data.
    ChangeCode,
    /// Two bytes or more left over: 15.
    LeaveOver,
    /// The blocks' data cut: 13, if there was any.
    CutData,
    /// A block of code 6: 12.
    CodeSix,
    /// A copy that leaves the frame: 14.
    CopyOutside,
    /// A map byte too few: 10.
    ShortMap,
    /// Map bytes too many: 10.
    LongMap,
    /// A number of columns that is not taken: 6.
    BadColumns,
    /// A number of rows that is not taken: 6.
    BadRows,
}

impl Damage {
    /// Every kind.
    pub const ALL: [Damage; 13] = [
        Damage::FlipData,
        Damage::FlipMap,
        Damage::InsertData,
        Damage::RemoveData,
        Damage::ChangeCode,
        Damage::LeaveOver,
        Damage::CutData,
        Damage::CodeSix,
        Damage::CopyOutside,
        Damage::ShortMap,
        Damage::LongMap,
        Damage::BadColumns,
        Damage::BadRows,
    ];
}

/// Numbers of columns, and of rows, that are not taken: none, just above the limit, the limit in
/// pixels or in a word's high byte, and far above.
pub(crate) const BAD_COLUMNS: [usize; 8] = [0, 81, 82, 128, 256 + 80, 640, 0x5000, 0xFFFF];
pub(crate) const BAD_ROWS: [usize; 8] = [0, 61, 62, 80, 256 + 60, 480, 0x3C00, 0xFFFF];

/// A damaged copy of a valid packet.
pub fn damaged(rng: &mut Seeded, draft: &Draft, damage: Damage) -> Packet {
    let mut packet = draft.packet();
    match damage {
        Damage::FlipData => flip(rng, &mut packet.data),
        Damage::FlipMap => flip(rng, &mut packet.map),
        Damage::InsertData => {
            let at = rng.below(packet.data.len() + 1);
            packet.data.insert(at, rng.byte());
        }
        Damage::RemoveData => {
            if !packet.data.is_empty() {
                let at = rng.below(packet.data.len());
                packet.data.remove(at);
            }
        }
        Damage::ChangeCode => return with_block(rng, draft, |rng, code| *code = rng.byte() & 0x0F),
        Damage::LeaveOver => {
            let count = if rng.one_in(4) { rng.between(3, 300) } else { rng.between(2, 3) };
            return draft.clone().with_over(rng, count).packet();
        }
        Damage::CutData => {
            let cut = rng.between(1, 3);
            packet.data.truncate(draft.data_length().saturating_sub(cut));
        }
        Damage::CodeSix => return with_block(rng, draft, |_, code| *code = 6),
        Damage::CopyOutside => return with_outside_copy(rng, draft),
        Damage::ShortMap => packet.map.truncate(packet.map.len() - 1),
        Damage::LongMap => {
            let length = rng.between(1, 3);
            packet.map.extend(rng.bytes(length));
        }
        Damage::BadColumns => packet.columns = rng.pick(&BAD_COLUMNS),
        Damage::BadRows => packet.rows = rng.pick(&BAD_ROWS),
    }
    packet
}

/// Turns one to three bits of some bytes.
pub(crate) fn flip(rng: &mut Seeded, bytes: &mut [u8]) {
    if bytes.is_empty() {
        return;
    }
    for _ in 0..rng.between(1, 3) {
        let at = rng.below(bytes.len());
        bytes[at] ^= 1 << rng.below(8);
    }
}

fn with_block(rng: &mut Seeded, draft: &Draft, change: impl Fn(&mut Seeded, &mut u8)) -> Packet {
    let mut changed = draft.clone();
    let number = rng.below(draft.blocks.len());
    change(rng, &mut changed.blocks[number].code);
    changed.packet()
}

/// A block of the frame's rim is copied from outside.
fn with_outside_copy(rng: &mut Seeded, draft: &Draft) -> Packet {
    let number = form::rim_block(rng, draft.size);
    let mut changed = draft.clone();
    if let Some(block) = form::outside_copy(rng, draft.size, number) {
        changed.blocks[number] = block;
    }
    changed.packet()
}
