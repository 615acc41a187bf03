//! The pictures that a film sends, as PPM files, and the samples of its sound: what the example
//! players must write.

use crate::film::{self, opcode, Lent, State, Stepped};
use crate::frame::{BLOCK_SIDE, MAX_PIXELS};
use crate::packet::Rows;
use crate::palette;
use crate::refusal::Refusal;

/// Stores of the largest frame: every packet is drawn by one step, and no palette has more.
const STORES_A_STEP: usize = 312_000;
/// Bytes of the longest packet's samples: a word counts them, and each has two bytes at most.
const ROOM: usize = 2 * 65_535;
/// The type of the opcode that gives the time of a picture.
const TIMER: u8 = 0x02;
/// Microseconds that a picture stays before the first of them (003: a rate of 8341, 8 times).
const USUAL: u64 = 66_728;

/// What playing a film gives.
#[derive(Clone, Debug, PartialEq, Eq)]
pub struct Played {
    /// The pictures sent, in order, each as the bytes of a PPM file. Its heading has the rows of blocks
    /// touched (02, W2) since the same one of the lent pictures was last sent, and the microseconds
    /// after which it is shown.
    pub pictures: Vec<Vec<u8>>,
    /// The sound of the stream. Opcode 03 begins another recording unless channels, bits and rate
    /// stay as they are.
    pub recordings: Vec<Recording>,
    /// Where the film ended or was refused; 0 at opening.
    pub position: usize,
    /// The refusal, if the film did not end.
    pub refusal: Option<Refusal>,
}

/// Sound of one format.
#[derive(Clone, Debug, PartialEq, Eq)]
pub struct Recording {
    /// Two channels, left and right in turn; else one.
    pub stereo: bool,
    /// 16-bit samples, low byte first; else 8-bit ones.
    pub wide: bool,
    /// Samples of a channel in a second (003).
    pub rate: u16,
    /// The samples as bytes.
    pub samples: Vec<u8>,
}

/// Plays a film from zero pictures and palette, each frame drawn at once, with the sound of a
/// stream.
pub fn play(film: &[u8], stream: usize) -> Played {
    let (mut pictures, mut recordings) = (Vec::new(), Vec::new());
    let mut state = match film::open(film, stream) {
        Ok(state) => state,
        Err(refusal) => {
            return Played { pictures, recordings, position: 0, refusal: Some(refusal) };
        }
    };
    let (mut colours, mut place) = (vec![0; palette::LENGTH], 0);
    let (mut a, mut b) = (vec![0; MAX_PIXELS], vec![0; MAX_PIXELS]);
    let mut words = [(); 3].map(|()| vec![0; MAX_PIXELS]);
    let mut room = vec![0; ROOM];
    // Of each lent picture, what the packets drawn on it touched since it was sent.
    let mut touched = [Vec::new(), Vec::new(), Vec::new()];
    let (mut time, mut stays) = (0_u64, USUAL);
    let refusal = loop {
        let lent = Lent {
            palette: &mut colours,
            picture_a: &mut a,
            picture_b: &mut b,
            place: &mut place,
            room: &mut room,
            words: words.each_mut().map(Vec::as_mut_slice),
        };
        match film::step(film, state, lent, STORES_A_STEP) {
            Stepped::Taken(after, _, bytes) => {
                // Only a frame that is sent changes the roles (01, opcode 07).
                if after.front != state.front {
                    let rows = std::mem::take(&mut touched[after.front]);
                    let shown =
                        film::shown(&after, &a, &b).iter().flat_map(|&p| entry(&colours, p));
                    let words = film::shown_words(&after, words.each_ref().map(Vec::as_slice));
                    let shown = shown.chain(words.iter().flat_map(|&word| components(word)));
                    pictures.push(ppm(&after, shown, &rows, time));
                    time = time.wrapping_add(stays);
                }
                stays = timer(film, &state).unwrap_or(stays);
                record(&mut recordings, film, &state, &after, &room[..bytes]);
                state = after;
            }
            Stepped::Whole(after, _, rows) => {
                let count = if state.true_colour { 3 } else { 2 };
                touched[(state.front + 1) % count].extend(rows);
                state = after;
            }
            // Not met: no step has more stores than it is allowed.
            Stepped::Unfinished(same, ..) => state = same,
            Stepped::Ended(_) => break None,
            Stepped::Refused(refusal) => break Some(refusal),
        }
    };
    Played { pictures, recordings, position: state.position, refusal }
}

/// Goes on with the sound after a step that was taken: by another recording behind an opcode 03, and
/// by the samples that the step wrote.
fn record(
    recordings: &mut Vec<Recording>,
    film: &[u8],
    before: &State,
    after: &State,
    written: &[u8],
) {
    if let Some(rate) = rate_of_format(film, before) {
        let (stereo, wide) = (after.sound.stereo, after.sound.wide);
        let last = recordings.last().map(|last| (last.stereo, last.wide, last.rate));
        if last != Some((stereo, wide, rate)) {
            recordings.push(Recording { stereo, wide, rate, samples: Vec::new() });
        }
    }
    if let Some(last) = recordings.last_mut() {
        last.samples.extend(written);
    }
}

/// The rate that an opcode 03 gives where a step in this state takes one: its third word.
fn rate_of_format(film: &[u8], state: &State) -> Option<u16> {
    let head = film::opcode_head(film, state.position, state.chunk_end).ok()?;
    let is_acted_on = head.kind == opcode::INIT_AUDIO && state.sound.chooses();
    let rate = head.body.of(film)?.get(4..6)?;
    is_acted_on.then(|| u16::from_le_bytes([rate[0], rate[1]]))
}

/// The microseconds that an opcode 02 gives where a step in this state takes one, unless they are 0: a
/// rate of two words times a subdivision (003).
fn timer(film: &[u8], state: &State) -> Option<u64> {
    let head = film::opcode_head(film, state.position, state.chunk_end).ok()?;
    let body = head.body.of(film)?;
    let word =
        |at: usize| body.get(at..at + 2).map(|word| u64::from(word[0]) + 256 * u64::from(word[1]));
    let time = (word(0)? + 65_536 * word(2)?) * word(4)?;
    (head.kind == TIMER && time != 0).then_some(time)
}

/// A picture as a PPM file: a heading with the first and the last of its touched rows and its time, as
/// comments, and with its width and height in pixels, then red, green and blue of each pixel.
fn ppm(state: &State, colours: impl Iterator<Item = u8>, touched: &[Rows], time: u64) -> Vec<u8> {
    let [width, height] = [state.columns, state.rows].map(|blocks| blocks * BLOCK_SIDE);
    let first = touched.iter().map(|rows| rows.first).min();
    let last = touched.iter().map(|rows| rows.last).max();
    let rows = match first.zip(last) {
        Some((first, last)) => format!("{first} to {last}"),
        None => "none".to_string(),
    };
    let heading = format!("P6\n# rows {rows}\n# at {time} us\n{width} {height}\n255\n");
    heading.into_bytes().into_iter().chain(colours).collect()
}

/// Red, green and blue of a palette entry: 0 to 63 in 8 bits, 4 times as much, and a 16th of it more.
fn entry(palette: &[u8], number: u8) -> [u8; 3] {
    let first = usize::from(number) * 3;
    [0, 1, 2].map(|component| palette[first + component]).map(|c| c * 4 + c / 16)
}

/// Red, green and blue of a word, from its high end: 0 to 31 in 8 bits, 8 times as much, and a 4th of it
/// more.
fn components(word: u16) -> [u8; 3] {
    [10, 5, 0].map(|low| (word >> low & 31) as u8).map(|c| c * 8 + c / 4)
}
