//! Films played by both players, and what the accounts differ in.

use crate::film::{self, Plain, Width};
use crate::libav;
use crate::ours;
use crate::played::{Picture, Recording};
use maker::sound::Format;
use maker::words::WordForm;
use maker::Form;
use std::collections::BTreeSet;
use std::fmt;

/// What was compared.
#[derive(Clone, Debug, Default, PartialEq, Eq)]
pub struct Tally {
    /// Films.
    pub films: usize,
    /// Films with sound.
    pub sounding: usize,
    /// Pictures.
    pub pictures: usize,
    /// Pictures whose data has a byte left over.
    pub odd: usize,
    /// Pixels of all pictures.
    pub pixels: usize,
    /// Opcodes 0C.
    pub palettes: usize,
    /// Bytes of samples.
    pub sample_bytes: usize,
    /// The sizes, in blocks: columns and rows.
    pub sizes: BTreeSet<(usize, usize)>,
    /// The forms of the blocks in 8-bit films.
    pub forms: BTreeSet<Form>,
    /// The forms of the blocks in films with true colour.
    pub word_forms: BTreeSet<WordForm>,
    /// The formats of the sound.
    pub formats: BTreeSet<Format>,
}

impl fmt::Display for Tally {
    fn fmt(&self, f: &mut fmt::Formatter<'_>) -> fmt::Result {
        write!(f, "{} films ({} with sound), ", self.films, self.sounding)?;
        write!(f, "{} pictures ({} with an odd byte), ", self.pictures, self.odd)?;
        write!(f, "{} pixels, {} palette changes, ", self.pixels, self.palettes)?;
        write!(f, "{} bytes of samples; {} sizes, ", self.sample_bytes, self.sizes.len())?;
        let forms = self.forms.len() + self.word_forms.len();
        write!(f, "{forms} forms of blocks, {} formats of sound", self.formats.len())
    }
}

impl Tally {
    /// Plays the 8-bit film of a case by both and notes it; what the accounts differ in.
    pub fn compare(&mut self, seed: u64, number: u64) -> Result<(), String> {
        self.compare_film(film::plain(seed, number))
    }

    /// The same of a film with true colour.
    pub fn compare_deep(&mut self, seed: u64, number: u64) -> Result<(), String> {
        self.compare_film(film::of(Width::Words, seed, number))
    }

    fn compare_film(&mut self, plain: Plain) -> Result<(), String> {
        let bytes = plain.film.bytes();
        let ours = ours::play(&bytes, film::STREAM);
        let theirs = libav::play(&bytes)?;
        compare(&ours, &theirs)?;
        self.note(plain, &ours);
        Ok(())
    }

    fn note(&mut self, plain: Plain, ours: &ours::Account) {
        let (pictures, sound) = (&ours.played.pictures, &ours.played.sound);
        self.films += 1;
        self.sounding += usize::from(!sound.is_empty());
        self.pictures += pictures.len();
        self.odd += plain.odd;
        self.pixels += pictures.iter().map(|picture| picture.width * picture.height).sum::<usize>();
        self.palettes += plain.palettes;
        self.sample_bytes += sound.iter().map(|heard| heard.samples.len()).sum::<usize>();
        self.sizes.insert((plain.film.size.columns, plain.film.size.rows));
        self.forms.extend(plain.forms);
        self.word_forms.extend(plain.word_forms);
        self.formats.extend(plain.format.filter(|_| !sound.is_empty()));
    }
}

/// Compares the accounts of a film: both players came to its end, by the same pictures, the same
/// colours as 6-bit components and the same samples. With true colour the low 15 bits of each word are
/// compared: libavcodec keeps bit 15 as the film has it.
pub fn compare(ours: &ours::Account, theirs: &libav::Account) -> Result<(), String> {
    if let Some(refusal) = ours.refusal {
        return Err(refusal.to_string());
    }
    if !theirs.faults.is_empty() || theirs.error.is_some() {
        return Err(format!("libav says {:?} and ends by {:?}", theirs.faults, theirs.error));
    }
    let (one, other) = (&ours.played, &theirs.played);
    same("pictures", &one.pictures.len(), &other.pictures.len())?;
    for (number, (one, other)) in one.pictures.iter().zip(&other.pictures).enumerate() {
        compare_pictures(one, other).map_err(|what| format!("picture {number}: {what}"))?;
    }
    same("formats of sound", &one.sound.len(), &other.sound.len())?;
    one.sound.iter().zip(&other.sound).try_for_each(|(one, other)| compare_sound(one, other))
}

fn compare_pictures(ours: &Picture, theirs: &Picture) -> Result<(), String> {
    same("size", &(ours.width, ours.height), &(theirs.width, theirs.height))?;
    if !ours.words.is_empty() {
        let low: Vec<u16> = theirs.words.iter().map(|word| word & 0x7FFF).collect();
        return same_numbers("word", &ours.words, &low);
    }
    same_numbers("pixel", &ours.pixels, &theirs.pixels)?;
    let narrow: Vec<u8> = theirs.colours.iter().map(|component| component >> 2).collect();
    same_numbers("colour component", &ours.colours, &narrow)
}

fn compare_sound(ours: &Recording, theirs: &Recording) -> Result<(), String> {
    same("channels", &ours.channels, &theirs.channels)?;
    same("bytes of a sample", &ours.sample_bytes, &theirs.sample_bytes)?;
    same_numbers("sample byte", &ours.samples, &theirs.samples)
}

fn same<T: PartialEq + fmt::Debug>(what: &str, ours: &T, theirs: &T) -> Result<(), String> {
    match ours == theirs {
        true => Ok(()),
        false => Err(format!("{what}: {ours:?} by the library, {theirs:?} by libav")),
    }
}

fn same_numbers<T: PartialEq + fmt::Debug>(
    what: &str,
    ours: &[T],
    theirs: &[T],
) -> Result<(), String> {
    same(&format!("{what}s"), &ours.len(), &theirs.len())?;
    match ours.iter().zip(theirs).position(|(one, other)| one != other) {
        Some(index) => same(&format!("{what} {index}"), &ours[index], &theirs[index]),
        None => Ok(()),
    }
}
