//! Sound: opcodes 03, 08 and 09 for the stream that the film was opened with (02, W5; 003).

use crate::refusal::{self, Refusal};
use crate::steps::STEPS;

/// The streams that a film can have, one bit of a packet's mask each (003).
pub const STREAMS: usize = 16;
/// A stream number that no film has: opcodes 03, 08 and 09 are passed over, as by every number from
/// here on.
pub const NO_STREAM: usize = STREAMS;

/// Bits of opcode 03's flags.
const STEREO: u16 = 1 << 0;
const WIDE: u16 = 1 << 1;
const COMPRESSED: u16 = 1 << 2;
/// The first version of opcode 03 in which sound can be compressed.
const VERSION_OF_COMPRESSED: u8 = 1;

/// A sample of silence in 8-bit sound, which has no sign.
const MIDDLE: u8 = 128;

/// What a film's state keeps of its sound.
///
/// Where no format is known nothing reads the fields behind `has_format`. A step that moves the
/// state then makes them all 0 and false.
#[derive(Clone, Copy, Debug, PartialEq, Eq)]
pub struct Sound {
    /// The stream that is chosen, given at opening; [`NO_STREAM`] or above chooses none.
    pub stream: usize,
    /// A format is known: opcode 03 was taken.
    pub has_format: bool,
    /// Two channels, left and right in turn; else one.
    pub stereo: bool,
    /// 16-bit samples; else 8-bit ones.
    pub wide: bool,
    /// A byte of data stands for a step from one sample of its channel to the next.
    pub compressed: bool,
    /// A compressed 08 was taken since the last 03.
    pub begun: bool,
    /// The last sample of the left channel, or of the only one.
    pub left: u16,
    /// The last sample of the right channel.
    pub right: u16,
}

impl Sound {
    /// The sound of a film that was just opened.
    pub const fn new(stream: usize) -> Sound {
        Sound {
            stream,
            has_format: false,
            stereo: false,
            wide: false,
            compressed: false,
            begun: false,
            left: 0,
            right: 0,
        }
    }

    /// Whether a stream is chosen, so that opcodes 03, 08 and 09 are acted on.
    pub fn chooses(&self) -> bool {
        self.stream < STREAMS
    }

    /// Whether the format can be: compressed sound is 16-bit. Else the state is refused 16.
    pub(crate) fn can_be(&self) -> bool {
        !self.has_format || self.wide || !self.compressed
    }

    /// As a step that moves the state gives it back: what nothing reads is 0.
    pub(crate) fn settled(self) -> Sound {
        if self.has_format {
            self
        } else {
            Sound::new(self.stream)
        }
    }

    fn channels(&self) -> usize {
        if self.stereo {
            2
        } else {
            1
        }
    }

    fn sample_bytes(&self) -> usize {
        if self.wide {
            2
        } else {
            1
        }
    }

    /// Whether a packet may count so many samples: both channels have as many.
    fn takes_count(&self, count: usize) -> bool {
        count % self.channels() == 0
    }

    /// Whether the next chosen 08 is the first compressed one, which has the start words.
    fn starts(&self) -> bool {
        self.compressed && !self.begun
    }
}

/// Opcode 03: a word that is not read, flags, rate and buffer length, of which the flags alone are
/// read. The sound starts afresh.
pub fn initialize(sound: Sound, version: u8, body: &[u8]) -> Result<Sound, Refusal> {
    let flags = word(body, 2)?;
    let after = Sound {
        has_format: true,
        stereo: flags & STEREO != 0,
        wide: flags & WIDE != 0,
        compressed: flags & COMPRESSED != 0 && version >= VERSION_OF_COMPRESSED,
        ..Sound::new(sound.stream)
    };
    if after.can_be() {
        Ok(after)
    } else {
        Err(Refusal::new(refusal::SOUND_FORMAT))
    }
}

/// Opcode 08: writes the samples of a packet that belongs to the stream to the room's front. Gives
/// the bytes written.
pub fn data(sound: Sound, body: &[u8], room: &mut [u8]) -> Result<(Sound, usize), Refusal> {
    let packet = Packet::read(body)?;
    if !packet.is_for(sound.stream) {
        return Ok((sound, 0));
    }
    check_known(&sound)?;
    if data_length(&sound, packet.count) != Some(packet.data.len()) {
        return Err(Refusal::new(refusal::SOUND_LENGTH));
    }
    let (after, bytes) = if sound.compressed {
        decompressed(sound, packet.data)
    } else {
        (sound, packet.data.to_vec())
    };
    write(&bytes, room)?;
    Ok((after, bytes.len()))
}

/// Opcode 09: writes so many zero samples to the room's front. Gives the bytes written. The last
/// samples stay as they are.
pub fn silence(sound: Sound, body: &[u8], room: &mut [u8]) -> Result<usize, Refusal> {
    let packet = Packet::read(body)?;
    if !packet.is_for(sound.stream) {
        return Ok(0);
    }
    check_known(&sound)?;
    if !sound.takes_count(packet.count) {
        return Err(Refusal::new(refusal::SOUND_LENGTH));
    }
    let zero = if sound.wide { 0 } else { MIDDLE };
    let bytes = vec![zero; packet.count * sound.sample_bytes()];
    write(&bytes, room)?;
    Ok(bytes.len())
}

/// A body of 08 or 09: words index, mask and length in samples, then the data. The index is not
/// read.
struct Packet<'a> {
    mask: u16,
    /// Samples of all channels together.
    count: usize,
    data: &'a [u8],
}

impl Packet<'_> {
    fn read(body: &[u8]) -> Result<Packet<'_>, Refusal> {
        let (mask, count) = (word(body, 2)?, word(body, 4)?);
        Ok(Packet { mask, count: usize::from(count), data: &body[6..] })
    }

    /// Whether the packet belongs to a stream.
    fn is_for(&self, stream: usize) -> bool {
        stream < STREAMS && self.mask >> stream & 1 == 1
    }
}

/// Refusal 17 of a chosen packet.
fn check_known(sound: &Sound) -> Result<(), Refusal> {
    if sound.has_format {
        Ok(())
    } else {
        Err(Refusal::new(refusal::SOUND_FORMAT))
    }
}

/// Bytes of data for so many samples; none where they cannot be so many, which start words that
/// are more cannot either.
fn data_length(sound: &Sound, count: usize) -> Option<usize> {
    if !sound.takes_count(count) {
        None
    } else if sound.starts() {
        let behind = count.checked_sub(sound.channels())?;
        Some(2 * sound.channels() + behind)
    } else if sound.compressed {
        Some(count)
    } else {
        Some(count * sound.sample_bytes())
    }
}

/// The samples of compressed data as bytes, low first, and the sound behind them: in the first
/// packet a start word for each channel, which is its first sample, then a step for each sample,
/// left and right in turn, added with wrap-around.
fn decompressed(sound: Sound, data: &[u8]) -> (Sound, Vec<u8>) {
    let mut last = [sound.left, sound.right];
    let mut samples = Vec::new();
    let start_words = if sound.starts() { sound.channels() } else { 0 };
    let (words, steps) = data.split_at(2 * start_words);
    for (channel, word) in words.chunks_exact(2).enumerate() {
        last[channel] = u16::from_le_bytes([word[0], word[1]]);
        samples.push(last[channel]);
    }
    for (n, &byte) in steps.iter().enumerate() {
        let channel = n % sound.channels();
        last[channel] = last[channel].wrapping_add_signed(STEPS[usize::from(byte)]);
        samples.push(last[channel]);
    }
    let [left, right] = last;
    let bytes = samples.into_iter().flat_map(u16::to_le_bytes).collect();
    (Sound { begun: true, left, right, ..sound }, bytes)
}

/// Writes bytes to the room's front, or meets 19.
fn write(bytes: &[u8], room: &mut [u8]) -> Result<(), Refusal> {
    let front = room.get_mut(..bytes.len()).ok_or(Refusal::new(refusal::ROOM))?;
    front.copy_from_slice(bytes);
    Ok(())
}

/// A word of a body, or refusal 5 where the body is too short for it.
fn word(body: &[u8], at: usize) -> Result<u16, Refusal> {
    match body.get(at..at + 2) {
        Some(word) => Ok(u16::from_le_bytes([word[0], word[1]])),
        None => Err(Refusal::new(refusal::BODY_LENGTH)),
    }
}
