//! Some numbers of refusal have several causes. Which one it is stands in the film, where the refused
//! step began. The number is the library's; these words are not proved.

use crate::opcodes::{kind, Opcode, HEAD, SKIPPED};
use mve::{Error, Sound, State};

/// The cause, where the number has more than one.
pub fn cause(film: &[u8], state: &State, error: Error) -> Option<String> {
    match error {
        Error::Chunk => Some(chunk(film.get(state.position..)?)),
        Error::Opcode => opcode(film.get(state.position..state.chunk_end)?),
        _ => of_opcode(&Opcode::at(film, state)?, state, error),
    }
}

fn chunk(rest: &[u8]) -> String {
    match *rest {
        [low, high, _, _, ref behind @ ..] => {
            let (length, left) = (u16::from_le_bytes([low, high]), behind.len());
            format!("the film breaks off: this chunk has {length} bytes, and {left} are left")
        }
        _ => "the film breaks off inside the head of this chunk".into(),
    }
}

/// The rest of a chunk, from an opcode on.
fn opcode(rest: &[u8]) -> Option<String> {
    let &[low, high, kind, _, ref behind @ ..] = rest else {
        let left = rest.len();
        return Some(format!(
            "{left} bytes are left in the chunk, and an opcode's head has {HEAD}"
        ));
    };
    let (length, left) = (usize::from(u16::from_le_bytes([low, high])), behind.len());
    if length > left {
        let passes = "passes the end of its chunk";
        return Some(format!(
            "opcode 0x{kind:02X} {passes}: it has {length} bytes, and {left} are left"
        ));
    }
    let more = left - length;
    let is_last = matches!(kind, kind::END | kind::CHUNK_END);
    is_last.then(|| {
        format!("opcode 0x{kind:02X} must be the last of its chunk, and {more} bytes follow")
    })
}

fn of_opcode(opcode: &Opcode<'_>, state: &State, error: Error) -> Option<String> {
    let Opcode { kind, version, body } = *opcode;
    let length = body.len();
    match error {
        Error::Type if matches!(kind, 0x06 | 0x0E | 0x10 | 0x16..) => {
            Some(format!("opcode 0x{kind:02X} is not one that the player takes"))
        }
        Error::Type => Some(format!("opcode 0x{kind:02X} has no version {version}")),
        Error::BodyLength if matches!(kind, kind::PALETTE | kind::PALETTE_MASKS) => {
            Some(format!("opcode 0x{kind:02X} does not fill its {length} bytes exactly"))
        }
        Error::BodyLength if kind == kind::VIDEO && state.true_colour => {
            Some(format!("opcode 0x11 of a film with true colour cannot have {length} bytes"))
        }
        Error::BodyLength => {
            Some(format!("opcode 0x{kind:02X}, version {version}, cannot have {length} bytes"))
        }
        Error::FrameSize => size(opcode, state),
        Error::Palette => palette(opcode),
        Error::NoFrame if state.columns == 0 => {
            Some("a picture comes before the size of the pictures".into())
        }
        Error::NoFrame => Some("a picture comes without the map of its blocks' codes".into()),
        Error::Parts => parts(opcode),
        Error::SoundFormat if kind == kind::SOUND_FORMAT => {
            Some("the sound is both 8-bit and compressed".into())
        }
        Error::SoundFormat => Some("sound comes before its format".into()),
        Error::SoundLength => sound(opcode, &state.sound),
        _ => None,
    }
}

fn size(opcode: &Opcode<'_>, state: &State) -> Option<String> {
    let [columns, rows] = [opcode.word(0)?, opcode.word(1)?];
    let is_second = state.columns > 0;
    Some(match is_second {
        true => "the size of the pictures is given a second time".into(),
        false => format!("pictures of {columns}x{rows} blocks: 1x1 to 80x60 are possible"),
    })
}

/// The packet's offset, which leads outside.
fn parts(opcode: &Opcode<'_>) -> Option<String> {
    let packet = opcode.body.get(SKIPPED..)?;
    let offset = u16::from_le_bytes(*packet.first_chunk()?);
    let length = packet.len();
    Some(format!(
        "the second part of the packet is said to begin at byte {offset}: 2 to {length} are possible"
    ))
}

fn palette(opcode: &Opcode<'_>) -> Option<String> {
    const LAST: &str = "the last entry is 255";
    let is_past = |base: usize, count: usize| count > 0 && base + count > 256;
    let past = match (opcode.kind, opcode.body) {
        (kind::PALETTE, _) => {
            let [start, count] = [opcode.word(0)?, opcode.word(1)?].map(usize::from);
            is_past(start, count)
                .then(|| format!("{count} palette entries from {start} on: {LAST}"))
        }
        (kind::GRADIENTS, &[a, rows_a, columns_a, b, rows_b, columns_b]) => {
            let gradients = [(a, rows_a, columns_a), (b, rows_b, columns_b)];
            let counts = gradients.map(|(base, rows, columns)| {
                (usize::from(base), usize::from(rows) * usize::from(columns))
            });
            let past = counts.into_iter().find(|&(base, count)| is_past(base, count));
            past.map(|(base, count)| {
                format!("a gradient of {count} entries from {base} on: {LAST}")
            })
        }
        _ => None,
    };
    Some(past.unwrap_or_else(|| "a colour component is above 63".into()))
}

fn sound(opcode: &Opcode<'_>, sound: &Sound) -> Option<String> {
    let (count, channels) = (usize::from(opcode.word(2)?), 1 + usize::from(sound.stereo));
    if count % channels > 0 {
        return Some(format!(
            "{count} samples are not as many for the left channel as for the right"
        ));
    }
    let begins = sound.compressed && !sound.begun;
    if begins && count < channels {
        return Some(format!(
            "the first sound has {count} samples: a start word a channel is one each"
        ));
    }
    let (data, needed) = (opcode.body.len().checked_sub(6)?, needed(count, channels, sound));
    Some(format!("the sound has {data} bytes of data, and its {count} samples take {needed}"))
}

/// The bytes of data that so many samples take.
fn needed(count: usize, channels: usize, sound: &Sound) -> usize {
    match (sound.compressed, sound.begun) {
        (true, false) => count + channels,
        (true, true) => count,
        (false, _) => count * (1 + usize::from(sound.wide)),
    }
}
