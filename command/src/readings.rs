//! What a film has that other players read otherwise, or pass over: counted over all of its packets,
//! also behind a refusal. Heads are walked as far as they go; nothing here is proved.

use crate::opcodes::{kind, Opcode, HEAD, SKIPPED};
use mve::{Error, Refusal, Rows, State};

const HEADER: usize = 26;

/// The readings of a packet's count of samples that players have, in the order of [`Readings::sound`].
pub const SOUND: [(&str, &str); 4] = [
    ("first_samples", "start words in the first packet, length in samples: this library"),
    ("every_samples", "start words in every packet, length in samples"),
    ("first_bytes", "start words in the first packet, length in bytes"),
    ("every_bytes", "start words in every packet, length in bytes"),
];

/// What was counted.
#[derive(Clone, Debug, Default, PartialEq, Eq)]
pub struct Readings {
    /// Packets of sound of the stream, and how many fit each of the readings.
    pub packets: usize,
    pub sound: [usize; SOUND.len()],
    /// Pictures that leave no byte over, one, or more; and the most.
    pub left_over: [usize; 3],
    pub most_left_over: usize,
    /// Pictures that are drawn and never sent.
    pub unsent: usize,
    /// The streams that have sound, a bit each.
    pub streams: u16,
}

/// The format of the sound, as opcode 0x03 gives it.
#[derive(Clone, Copy, Debug)]
struct Format {
    channels: usize,
    wide: bool,
    compressed: bool,
    /// Whether a packet has come since.
    begun: bool,
}

/// A film that is being counted.
#[derive(Default)]
struct Count<'a> {
    readings: Readings,
    stream: usize,
    format: Option<Format>,
    size: Option<(usize, usize)>,
    true_colour: bool,
    map: Option<&'a [u8]>,
    is_unsent: bool,
}

impl Readings {
    /// Counts a film's packets; of sound those of a stream.
    pub fn of(film: &[u8], stream: usize) -> Readings {
        let mut count = Count { stream, ..Count::default() };
        for opcode in opcodes(film) {
            count.take(&opcode);
        }
        count.readings.unsent += usize::from(count.is_unsent);
        count.readings
    }
}

/// The opcodes of a film up to the end of the chunk that ends it, or to a head that passes an end.
fn opcodes(film: &[u8]) -> impl Iterator<Item = Opcode<'_>> {
    let mut state = State { position: HEADER, chunk_end: HEADER, ..State::default() };
    let mut is_last = false;
    std::iter::from_fn(move || {
        while state.position == state.chunk_end && !is_last {
            let head = film.get(state.position..)?.first_chunk::<HEAD>()?;
            state.position += HEAD;
            state.chunk_end = state.position + usize::from(u16::from_le_bytes([head[0], head[1]]));
        }
        let opcode = Opcode::at(film, &state)?;
        is_last |= opcode.kind == kind::END;
        state.position += HEAD + opcode.body.len();
        Some(opcode)
    })
}

impl<'a> Count<'a> {
    fn take(&mut self, opcode: &Opcode<'a>) {
        match opcode.kind {
            kind::SOUND_FORMAT => self.format = format(opcode),
            kind::SOUND => self.take_sound(opcode),
            kind::SIZE => {
                let [columns, rows] =
                    [opcode.word(0), opcode.word(1)].map(|word| word.map(usize::from));
                self.size = columns.zip(rows);
                self.true_colour = opcode.true_colour();
            }
            kind::MAP => self.map = Some(opcode.body),
            kind::VIDEO => self.take_picture(opcode),
            kind::SEND => self.is_unsent = false,
            _ => {}
        }
    }

    fn take_sound(&mut self, opcode: &Opcode<'_>) {
        self.readings.streams |= opcode.streams().unwrap_or(0);
        let is_of_stream = opcode.streams().is_some_and(|streams| streams >> self.stream & 1 == 1);
        let (Some(format), Some(length)) = (&mut self.format, opcode.word(2)) else { return };
        let Some(data) = opcode.body.len().checked_sub(6).filter(|_| is_of_stream) else { return };
        self.readings.packets += 1;
        for (fits, number) in self.readings.sound.iter_mut().zip(0..) {
            let (in_every, in_bytes) = (number % 2 == 1, number >= 2);
            *fits += usize::from(format.fits(usize::from(length), data, in_every, in_bytes));
        }
        format.begun = true;
    }

    fn take_picture(&mut self, opcode: &Opcode<'_>) {
        self.readings.unsent += usize::from(self.is_unsent);
        self.is_unsent = true;
        let left = self.size.zip(self.map.take()).zip(opcode.body.get(SKIPPED..));
        let strict = if self.true_colour { mve::check_words_strict } else { mve::check_strict };
        let Some(left) = left.and_then(|((size, map), data)| left_over(strict, size, map, data))
        else {
            return;
        };
        self.readings.left_over[left.min(2)] += 1;
        self.readings.most_left_over = self.readings.most_left_over.max(left);
    }
}

fn format(opcode: &Opcode<'_>) -> Option<Format> {
    let flags = opcode.word(1)?;
    let compressed = opcode.version == 1 && flags & 4 != 0;
    let channels = 1 + usize::from(flags & 1);
    Some(Format { channels, wide: flags & 2 != 0, compressed, begun: false })
}

impl Format {
    /// Whether data of so many bytes fits a length, by one of the readings.
    fn fits(&self, length: usize, data: usize, in_every: bool, in_bytes: bool) -> bool {
        let sample = 1 + usize::from(self.wide);
        let unit = if in_bytes { sample } else { 1 };
        let samples = length / unit;
        if length % (unit * self.channels) > 0 {
            return false;
        }
        if !self.compressed {
            return data == samples * sample;
        }
        let has_start = in_every || !self.begun;
        if has_start {
            samples >= self.channels && data == samples + self.channels
        } else {
            data == samples
        }
    }
}

/// The strict check of a packet.
type Check = fn(usize, usize, &[u8], &[u8]) -> Result<Option<Rows>, Refusal>;

/// The bytes that a packet leaves over at its end, where nothing else is wrong with it. The strict check
/// refuses them by 15, and too few by 13 or, of true colour, by 20: halving finds the length that it accepts.
fn left_over(
    strict: Check,
    (columns, rows): (usize, usize),
    map: &[u8],
    data: &[u8],
) -> Option<usize> {
    let check = |length: usize| strict(columns, rows, map, &data[..length]);
    match check(data.len()) {
        Ok(_) => return Some(0),
        Err(refusal) if refusal.error != Error::DataLeft => return None,
        Err(_) => {}
    }
    let (mut low, mut high) = (0, data.len());
    while low < high {
        let middle = low + (high - low) / 2;
        let is_short = check(middle)
            .is_err_and(|refusal| matches!(refusal.error, Error::DataShort | Error::Parts));
        (low, high) = if is_short { (middle + 1, high) } else { (low, middle) };
    }
    // Else it is the first part of a packet with true colour that has bytes left over.
    check(low).is_ok().then(|| data.len() - low)
}
