//! All that a stop leaves: palette, pictures, place and saved state, in memory that two processes
//! share. [`Kept`] is it for the process that is stopped, [`Memory`] and [`Shared`] for the one that
//! looks on.

use crate::ffi;
use mve::numbers::{STATE, STATE_NUMBERS, STEPPED_NUMBERS};
use mve::Pictures;
use std::fs::File;
use std::hint;
use std::io;
use std::mem::{offset_of, size_of};
use std::os::unix::fs::FileExt;
use std::sync::atomic::{AtomicUsize, Ordering};

/// A state of a film as numbers, in the order of include/mve.h.
pub type Numbers = [usize; STATE_NUMBERS];

/// What is kept, each picture with so many bytes or words lent.
#[repr(C)]
pub struct Kept<const LENT: usize> {
    /// Two answers, each with a state at its end, which calls use in turn.
    answers: [[usize; STEPPED_NUMBERS]; 2],
    /// Which of the two holds: its state is the saved one.
    holds: AtomicUsize,
    /// A number that grows where a call of the library is entered, and where it is left; odd inside
    /// one. No process reads it that goes on.
    calls: AtomicUsize,
    /// The place.
    pub place: usize,
    /// The palette.
    pub palette: [u8; 768],
    /// The first picture.
    pub a: [u8; LENT],
    /// The second picture.
    pub b: [u8; LENT],
    /// The three pictures of words.
    pub words: [[u16; LENT]; 3],
}

impl<const LENT: usize> Kept<LENT> {
    /// The kept memory that this process is given as its standard input.
    pub fn given() -> io::Result<&'static mut Kept<LENT>> {
        use std::os::fd::AsFd;
        let file = File::from(io::stdin().as_fd().try_clone_to_owned()?);
        ffi::map(&file)
    }

    /// What a call is lent: the saved state to read, and the other answer to write.
    pub fn lent(&mut self) -> Lent<'_> {
        let [one, other] = &mut self.answers;
        let (saved, out) =
            if self.holds.load(Ordering::SeqCst) == 0 { (one, other) } else { (other, one) };
        let (palette, a, b, [c, d, e]) =
            (&mut self.palette, &mut self.a, &mut self.b, &mut self.words);
        let pictures = Pictures { a, b, c, d, e };
        Lent { from: &saved[STATE], out, palette, pictures, place: &mut self.place }
    }

    /// The saved state, and the one that the last call wrote.
    pub fn states(&self) -> [&[usize]; 2] {
        let holds = self.holds.load(Ordering::SeqCst);
        [holds, 1 - holds].map(|at| &self.answers[at][STATE])
    }

    /// Saves the state that the last call wrote, as the example players do: it stands in full beside the
    /// old one; one store makes it the saved one, an atomic one, which stays behind the others.
    pub fn save(&mut self) {
        self.holds.store(1 - self.holds.load(Ordering::SeqCst), Ordering::SeqCst);
    }

    /// Saves it as no player may: it is written over the old one, number by number.
    pub fn save_in_place(&mut self) {
        let holds = self.holds.load(Ordering::SeqCst);
        for at in STATE {
            let number = self.answers[1 - holds][at];
            *hint::black_box(&mut self.answers[holds][at]) = number;
            hint::black_box(&mut *self);
        }
    }

    /// Says that a call of the library is entered, whether or not the last one was left.
    pub fn enter(&self) {
        self.calls.store((self.calls.load(Ordering::SeqCst) + 1) | 1, Ordering::SeqCst);
    }

    /// Says that it is left.
    pub fn leave(&self) {
        self.calls.fetch_add(1, Ordering::SeqCst);
    }
}

/// What a call is lent of kept memory.
pub struct Lent<'a> {
    /// The numbers of the saved state.
    pub from: &'a [usize],
    /// Where the answer goes.
    pub out: &'a mut [usize],
    /// The palette.
    pub palette: &'a mut [u8],
    /// All pictures.
    pub pictures: Pictures<'a>,
    /// The place.
    pub place: &'a mut usize,
}

/// What stands in kept memory, as a process sees it that goes on with it: of the answers the state that
/// is saved.
#[derive(Clone, Debug, PartialEq, Eq)]
pub struct Memory {
    /// The palette.
    pub palette: Vec<u8>,
    /// Both pictures of bytes.
    pub pictures: [Vec<u8>; 2],
    /// The three of words.
    pub words: [Vec<u16>; 3],
    /// The place.
    pub place: usize,
    /// The saved state.
    pub state: Numbers,
}

/// Kept memory as the process looks on it that lends it to another.
pub struct Shared<const LENT: usize> {
    file: File,
    bytes: Vec<u8>,
}

impl<const LENT: usize> Shared<LENT> {
    /// New memory, in which this stands.
    pub fn new(memory: &Memory) -> io::Result<Shared<LENT>> {
        let length = size_of::<Kept<LENT>>();
        let mut shared = Shared { file: ffi::memory(length as u64)?, bytes: vec![0; length] };
        let numbers = memory.state.iter().flat_map(|number| number.to_ne_bytes());
        shared.put(state_offset::<LENT>(0), &numbers.collect::<Vec<u8>>());
        shared.put(offset_of!(Kept<LENT>, place), &memory.place.to_ne_bytes());
        shared.put(offset_of!(Kept<LENT>, palette), &memory.palette);
        shared.put(offset_of!(Kept<LENT>, a), &memory.pictures[0]);
        shared.put(offset_of!(Kept<LENT>, b), &memory.pictures[1]);
        for (number, words) in memory.words.iter().enumerate() {
            let bytes: Vec<u8> = words.iter().flat_map(|word| word.to_ne_bytes()).collect();
            shared.put(words_offset::<LENT>(number), &bytes);
        }
        shared.file.write_all_at(&shared.bytes, 0)?;
        Ok(shared)
    }

    fn put(&mut self, at: usize, bytes: &[u8]) {
        self.bytes[at..][..bytes.len()].copy_from_slice(bytes);
    }

    /// The memory as a file, to lend it.
    pub fn file(&self) -> io::Result<File> {
        self.file.try_clone()
    }

    /// Looks anew. Whether anything that is kept may have changed since the last look.
    pub fn look(&mut self) -> io::Result<bool> {
        let kept =
            [0..offset_of!(Kept<LENT>, calls), offset_of!(Kept<LENT>, place)..self.bytes.len()];
        let mut bytes = vec![0; self.bytes.len()];
        self.file.read_exact_at(&mut bytes, 0)?;
        let changed = kept.into_iter().any(|part| bytes[part.clone()] != self.bytes[part]);
        self.bytes = bytes;
        Ok(changed)
    }

    /// A number that is another one once a call is entered or left.
    pub fn calls_now(&self) -> io::Result<usize> {
        let mut bytes = [0; size_of::<usize>()];
        self.file.read_exact_at(&mut bytes, offset_of!(Kept<LENT>, calls) as u64)?;
        Ok(usize::from_ne_bytes(bytes))
    }

    /// Whether a call was entered and not left, at the last look.
    pub fn in_call(&self) -> bool {
        self.number(offset_of!(Kept<LENT>, calls)) % 2 == 1
    }

    /// What stood in it at the last look.
    pub fn memory(&self) -> Memory {
        let numbers = state_offset::<LENT>(self.number(offset_of!(Kept<LENT>, holds)));
        let part = |at: usize, length| self.bytes[at..][..length].to_vec();
        Memory {
            palette: part(offset_of!(Kept<LENT>, palette), 768),
            pictures: [
                part(offset_of!(Kept<LENT>, a), LENT),
                part(offset_of!(Kept<LENT>, b), LENT),
            ],
            words: std::array::from_fn(|number| {
                let bytes = part(words_offset::<LENT>(number), 2 * LENT);
                bytes.chunks_exact(2).map(|word| u16::from_ne_bytes([word[0], word[1]])).collect()
            }),
            place: self.number(offset_of!(Kept<LENT>, place)),
            state: std::array::from_fn(|i| self.number(numbers + i * size_of::<usize>())),
        }
    }

    fn number(&self, at: usize) -> usize {
        let bytes = self.bytes[at..].first_chunk().expect("a number of the type");
        usize::from_ne_bytes(*bytes)
    }
}

/// Where a picture of words begins.
fn words_offset<const LENT: usize>(number: usize) -> usize {
    offset_of!(Kept<LENT>, words) + number * size_of::<[u16; LENT]>()
}

/// Where the state of one of the two answers stands.
fn state_offset<const LENT: usize>(answer: usize) -> usize {
    let numbers = answer * STEPPED_NUMBERS + STATE.start;
    offset_of!(Kept<LENT>, answers) + numbers * size_of::<usize>()
}
