//! What the second decoder finds in a film and plays of it. Times are read here, from opcode 02.

use reference::film::{opcode_head, open, shown, shown_words, step, Lent, State, Stepped};
use reference::frame::MAX_PIXELS;
use reference::Refusal;

/// A picture that is sent.
#[derive(Clone, Debug, PartialEq, Eq)]
pub struct Sent {
    pub width: usize,
    pub height: usize,
    /// Of an 8-bit film a palette entry for each pixel.
    pub pixels: Vec<u8>,
    /// Of a film with true colour a word for each pixel.
    pub words: Vec<u16>,
    /// 256 entries of 6-bit components.
    pub palette: Vec<u8>,
    /// When it is shown and for how long, in microseconds.
    pub start: u64,
    pub interval: u64,
}

impl Sent {
    /// The palette with components of 8 bits: 4 times as much, and a 16th more.
    pub fn colours(&self) -> Vec<u8> {
        self.palette.iter().map(|component| component * 4 + component / 16).collect()
    }

    /// Red, green and blue of each pixel. Of a word each has 5 bits: 8 times as much, and a quarter more.
    pub fn rgb(&self) -> Vec<u8> {
        if !self.words.is_empty() {
            let components = |&word: &u16| [word / 1024 % 32, word / 32 % 32, word % 32];
            let wide = |component: u16| (component * 8 + component / 4) as u8;
            return self.words.iter().flat_map(|word| components(word).map(wide)).collect();
        }
        let colours = self.colours();
        self.pixels
            .iter()
            .flat_map(|&pixel| colours[3 * usize::from(pixel)..][..3].to_vec())
            .collect()
    }
}

/// Sound of one format.
#[derive(Clone, Debug, PartialEq, Eq)]
pub struct Sounds {
    pub rate: u16,
    pub stereo: bool,
    pub wide: bool,
    pub samples: Vec<u8>,
}

impl Sounds {
    pub fn frame(&self) -> usize {
        (1 + usize::from(self.stereo)) * (1 + usize::from(self.wide))
    }

    /// The WAV file of these bytes of the samples.
    pub fn wav(&self, samples: &[u8]) -> Vec<u8> {
        let (channels, bits) = (1 + u16::from(self.stereo), 8 + 8 * u16::from(self.wide));
        let padded = samples.len() + samples.len() % 2;
        let mut file = b"RIFF".to_vec();
        file.extend((padded as u32 + 36).to_le_bytes());
        file.extend(b"WAVEfmt \x10\0\0\0\x01\0");
        file.extend(channels.to_le_bytes());
        file.extend(u32::from(self.rate).to_le_bytes());
        file.extend((u32::from(self.rate) * self.frame() as u32).to_le_bytes());
        file.extend((self.frame() as u16).to_le_bytes());
        file.extend(bits.to_le_bytes());
        file.extend(b"data");
        file.extend((samples.len() as u32).to_le_bytes());
        file.extend(samples);
        file.resize(44 + padded, 0);
        file
    }
}

/// A format that opcode 03 gives: rate, channels, bits, whether it is compressed.
pub type Format = (u16, usize, usize, bool);

/// All of a film.
#[derive(Clone, Debug, Default)]
pub struct Second {
    pub size: Option<(usize, usize)>,
    pub sent: Vec<Sent>,
    pub duration: u64,
    /// Whether a picture comes before any timer.
    pub assumed: bool,
    /// Sound that has samples.
    pub sounds: Vec<Sounds>,
    /// Each format that differs from the one before.
    pub formats: Vec<Format>,
    pub streams: Vec<usize>,
    pub palette_changes: usize,
    pub true_colour: bool,
    /// Where the film was refused, and why.
    pub refused: Option<(Refusal, usize)>,
}

impl Second {
    /// Decodes a film with a stream of its sound.
    pub fn of(film: &[u8], stream: usize) -> Second {
        let mut found = Second::default();
        found.refused = found.walk(film, stream).err();
        found
    }

    fn walk(&mut self, film: &[u8], stream: usize) -> Result<(), (Refusal, usize)> {
        let mut state = open(film, stream).map_err(|refusal| (refusal, 0))?;
        let (mut palette, mut place, mut room) = ([0; 768], 0, vec![0; 131_070]);
        let (mut a, mut b) = (vec![0; MAX_PIXELS], vec![0; MAX_PIXELS]);
        let mut words = [(); 3].map(|()| vec![0; MAX_PIXELS]);
        let mut timer = None;
        loop {
            let before = state;
            let lent = Lent {
                palette: &mut palette,
                picture_a: &mut a,
                picture_b: &mut b,
                place: &mut place,
                room: &mut room,
                words: words.each_mut().map(Vec::as_mut_slice),
            };
            let bytes = match step(film, state, lent, 312_000) {
                Stepped::Refused(refusal) => return Err((refusal, state.position)),
                Stepped::Ended(_) => return Ok(()),
                Stepped::Unfinished(..) => unreachable!("no picture has more stores"),
                Stepped::Whole(after, ..) => {
                    state = after;
                    0
                }
                Stepped::Taken(after, _, bytes) => {
                    state = after;
                    bytes
                }
            };
            self.size = (state.columns > 0).then_some((state.columns, state.rows));
            self.true_colour = state.true_colour;
            self.opcode(film, &before, &state, &room[..bytes], &mut timer);
            if state.front != before.front {
                let pixels = shown(&state, &a, &b);
                let words = shown_words(&state, words.each_ref().map(Vec::as_slice));
                self.send(&state, (pixels, words), &palette, timer);
            }
        }
    }

    fn opcode(
        &mut self,
        film: &[u8],
        before: &State,
        after: &State,
        samples: &[u8],
        timer: &mut Option<u64>,
    ) {
        let Ok(head) = opcode_head(film, before.position, before.chunk_end) else { return };
        let body = head.body.of(film).expect("the step was taken");
        let word = |n: usize| Some(u16::from_le_bytes([*body.get(2 * n)?, *body.get(2 * n + 1)?]));
        match head.kind {
            0x02 => *timer = timer_of(body).or(*timer),
            0x03 if before.sound.stream < 16 => self.format(word(2).expect("8 bytes"), after),
            0x08 => self.mask(word(1)),
            0x0B..=0x0D => self.palette_changes += 1,
            _ => (),
        }
        if !samples.is_empty() {
            self.samples(after, samples);
        }
    }

    fn format(&mut self, rate: u16, after: &State) {
        let sound = after.sound;
        let (channels, bits) = (if sound.stereo { 2 } else { 1 }, if sound.wide { 16 } else { 8 });
        let format = (rate, channels, bits, sound.compressed);
        if self.formats.last() != Some(&format) {
            self.formats.push(format);
        }
    }

    fn mask(&mut self, mask: Option<u16>) {
        let mask = mask.unwrap_or(0);
        self.streams.extend((0..16).filter(|stream| mask & 1 << stream != 0));
        self.streams.sort_unstable();
        self.streams.dedup();
    }

    fn samples(&mut self, after: &State, samples: &[u8]) {
        let rate = self.formats.last().expect("a format comes first").0;
        let (stereo, wide) = (after.sound.stereo, after.sound.wide);
        match self.sounds.last_mut() {
            Some(last) if (last.rate, last.stereo, last.wide) == (rate, stereo, wide) => {
                last.samples.extend(samples);
            }
            _ => self.sounds.push(Sounds { rate, stereo, wide, samples: samples.to_vec() }),
        }
    }

    fn send(
        &mut self,
        state: &State,
        (pixels, words): (&[u8], &[u16]),
        palette: &[u8],
        timer: Option<u64>,
    ) {
        let interval = timer.unwrap_or(66_728);
        self.assumed |= timer.is_none();
        self.sent.push(Sent {
            width: 8 * state.columns,
            height: 8 * state.rows,
            pixels: pixels.to_vec(),
            words: words.to_vec(),
            palette: palette.to_vec(),
            start: self.duration,
            interval,
        });
        self.duration += interval;
    }
}

/// Document 003: a double word of the rate, a word of the subdivision. Above ten minutes, or 0, it is
/// none.
fn timer_of(body: &[u8]) -> Option<u64> {
    let &[a, b, c, d, e, f, ..] = body else { return None };
    let rate = u64::from(u32::from_le_bytes([a, b, c, d]));
    let timer = rate * u64::from(u16::from_le_bytes([e, f]));
    (1..=600_000_000).contains(&timer).then_some(timer)
}
