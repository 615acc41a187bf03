//! A film played by libavformat and libavcodec, and frames of Microsoft Video 1 decoded by libavcodec, by
//! the functions of `c/libav.c`. All unsafe code is here.

#![allow(unsafe_code)]

use crate::played::{Picture, Recording, PALETTE_BYTES};
use std::ffi::{c_int, c_uint};
use std::marker::PhantomData;
use std::ptr::NonNull;

/// `struct player` of the C file.
#[repr(C)]
struct RawPlayer {
    _opaque: [u8; 0],
}

/// `struct trailer` of the C file.
#[repr(C)]
struct RawTrailer {
    _opaque: [u8; 0],
}

/// `struct event` of the C file.
#[repr(C)]
struct RawEvent {
    kind: c_int,
    error: c_int,
    width: c_int,
    height: c_int,
    deep: c_int,
    channels: c_int,
    sample_bytes: c_int,
    samples: c_int,
}

unsafe extern "C" {
    fn libav_format_version() -> c_uint;
    fn libav_codec_version() -> c_uint;
    fn libav_open(film: *const u8, length: usize, error: *mut c_int) -> *mut RawPlayer;
    fn libav_close(player: *mut RawPlayer);
    fn libav_next(player: *mut RawPlayer) -> RawEvent;
    fn libav_picture(player: *const RawPlayer, pixels: *mut u8, colours: *mut u8);
    fn libav_words(player: *const RawPlayer, words: *mut u16);
    fn libav_samples(player: *const RawPlayer, bytes: *mut u8);
    fn libav_trailer_open(width: c_int, height: c_int) -> *mut RawTrailer;
    fn libav_trailer_close(trailer: *mut RawTrailer);
    fn libav_trailer_next(
        trailer: *mut RawTrailer,
        data: *const u8,
        length: usize,
        pixels: *mut u8,
    ) -> c_int;
}

/// The versions of libavformat and libavcodec that run: major, minor, micro.
pub fn versions() -> [(u32, u32, u32); 2] {
    // SAFETY: they take nothing and give a number.
    let versions = unsafe { [libav_format_version(), libav_codec_version()] };
    versions.map(|version| (version >> 16, version >> 8 & 0xFF, version & 0xFF))
}

/// What comes next in a film.
pub enum Event {
    /// The end, with libav's number where it is not the end of the film.
    End(Option<i32>),
    /// A picture.
    Picture(Picture),
    /// Samples.
    Samples(Recording),
    /// A packet that is not decoded, with libav's number.
    Fault(i32),
}

/// A film that is being played.
pub struct Player<'a> {
    raw: NonNull<RawPlayer>,
    film: PhantomData<&'a [u8]>,
}

impl<'a> Player<'a> {
    /// Opens a film; libav's number where it is not taken.
    pub fn open(film: &'a [u8]) -> Result<Player<'a>, i32> {
        let mut error = 0;
        // SAFETY: address and length are those of a slice that outlives the player, which only reads
        // it; the number is borrowed by this call alone.
        let raw = unsafe { libav_open(film.as_ptr(), film.len(), &mut error) };
        NonNull::new(raw).map(|raw| Player { raw, film: PhantomData }).ok_or(error)
    }

    /// Plays on.
    pub fn next(&mut self) -> Event {
        // SAFETY: the player is open and borrowed by this call alone.
        let event = unsafe { libav_next(self.raw.as_ptr()) };
        match event.kind {
            0 => Event::End(Some(event.error).filter(|&error| error != 0)),
            1 if event.deep == 0 => {
                Event::Picture(self.picture(size(event.width), size(event.height)))
            }
            1 => Event::Picture(self.words(size(event.width), size(event.height))),
            2 => Event::Samples(self.samples(&event)),
            _ => Event::Fault(event.error),
        }
    }

    /// The picture decoded last, which has this size.
    fn picture(&self, width: usize, height: usize) -> Picture {
        let (mut pixels, mut colours) = (vec![0; width * height], vec![0; PALETTE_BYTES]);
        // SAFETY: the player is open; it writes a byte for each pixel of the size that it told, and
        // three for each of 256 entries, which are the lengths of the slices.
        unsafe { libav_picture(self.raw.as_ptr(), pixels.as_mut_ptr(), colours.as_mut_ptr()) };
        Picture { width, height, pixels, words: Vec::new(), colours }
    }

    /// The picture with true colour decoded last, which has this size.
    fn words(&self, width: usize, height: usize) -> Picture {
        let mut words = vec![0; width * height];
        // SAFETY: the player is open; it writes a word for each pixel of the size that it told, which is the
        // length of the slice.
        unsafe { libav_words(self.raw.as_ptr(), words.as_mut_ptr()) };
        Picture { width, height, pixels: Vec::new(), words, colours: Vec::new() }
    }

    /// The samples decoded last.
    fn samples(&self, event: &RawEvent) -> Recording {
        let (channels, sample_bytes) = (size(event.channels), size(event.sample_bytes));
        let mut samples = vec![0; size(event.samples) * channels * sample_bytes];
        // SAFETY: the player is open; it writes the bytes of as many samples as it told, which is the
        // length of the slice.
        unsafe { libav_samples(self.raw.as_ptr(), samples.as_mut_ptr()) };
        Recording { channels, sample_bytes, samples }
    }
}

impl Drop for Player<'_> {
    fn drop(&mut self) {
        // SAFETY: the player came from `libav_open` and is closed once.
        unsafe { libav_close(self.raw.as_ptr()) }
    }
}

/// A decoder of frames of Microsoft Video 1.
pub struct Trailer {
    raw: NonNull<RawTrailer>,
    pixels: usize,
}

impl Trailer {
    /// Of this size in pixels; none where libavcodec does not open it.
    pub fn open(width: usize, height: usize) -> Option<Trailer> {
        let [wide, high] = [width, height].map(|side| c_int::try_from(side).ok());
        // SAFETY: it takes two numbers.
        let raw = NonNull::new(unsafe { libav_trailer_open(wide?, high?) })?;
        Some(Trailer { raw, pixels: width * height })
    }

    /// The picture that the next frame gives; else libav's number.
    pub fn next(&mut self, data: &[u8]) -> Result<Vec<u8>, i32> {
        let mut pixels = vec![0; self.pixels];
        // SAFETY: the decoder is open and borrowed by this call alone; the data is only read; a byte for
        // each pixel of the size that it was opened with is written, which is the length of the slice.
        let error = unsafe {
            let (data, length) = (data.as_ptr(), data.len());
            libav_trailer_next(self.raw.as_ptr(), data, length, pixels.as_mut_ptr())
        };
        if error == 0 {
            Ok(pixels)
        } else {
            Err(error)
        }
    }
}

impl Drop for Trailer {
    fn drop(&mut self) {
        // SAFETY: the decoder came from `libav_trailer_open` and is closed once.
        unsafe { libav_trailer_close(self.raw.as_ptr()) }
    }
}

fn size(number: c_int) -> usize {
    usize::try_from(number).expect("libav counts from 0")
}
