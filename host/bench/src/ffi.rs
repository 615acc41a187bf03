//! libavcodec's decoders of Interplay video and sound and of Microsoft Video 1, by the functions of
//! `c/libav.c`. All unsafe code is here.

#![allow(unsafe_code)]

use maker::Size;
use std::ffi::{c_int, c_uint};
use std::ptr::NonNull;

/// `struct libav` of the C file.
#[repr(C)]
struct RawDecoder {
    _opaque: [u8; 0],
}

/// libavcodec's `AVPacket`.
#[repr(C)]
struct RawPacket {
    _opaque: [u8; 0],
}

unsafe extern "C" {
    fn libav_version() -> c_uint;
    fn libav_open(columns: c_int, rows: c_int) -> *mut RawDecoder;
    fn libav_open_words(columns: c_int, rows: c_int) -> *mut RawDecoder;
    fn libav_open_video1(columns: c_int, rows: c_int) -> *mut RawDecoder;
    fn libav_open_sound(channels: c_int) -> *mut RawDecoder;
    fn libav_close(decoder: *mut RawDecoder);
    fn libav_packet(bytes: *const u8, length: usize) -> *mut RawPacket;
    fn libav_packet_free(packet: *mut RawPacket);
    fn libav_decode(decoder: *mut RawDecoder, packet: *const RawPacket) -> c_int;
    fn libav_picture(decoder: *const RawDecoder, picture: *mut u8) -> c_int;
    fn libav_words(decoder: *const RawDecoder, picture: *mut u8) -> c_int;
    fn libav_release(decoder: *mut RawDecoder);
    fn libav_samples(decoder: *const RawDecoder, samples: *mut i16, room: usize) -> c_int;
}

/// The version of the library that runs: major, minor, micro.
pub fn version() -> (u32, u32, u32) {
    // SAFETY: it takes nothing and gives a number.
    let version = unsafe { libav_version() };
    (version >> 16, version >> 8 & 0xFF, version & 0xFF)
}

/// Bytes for the decoder, copied to where it wants them.
pub struct Packet(NonNull<RawPacket>);

impl Packet {
    /// `None` where there is no memory for it.
    pub fn new(bytes: &[u8]) -> Option<Packet> {
        // SAFETY: address and length are those of a slice that lives through the call, which only
        // reads it.
        NonNull::new(unsafe { libav_packet(bytes.as_ptr(), bytes.len()) }).map(Packet)
    }
}

impl Drop for Packet {
    fn drop(&mut self) {
        // SAFETY: the packet came from `libav_packet` and is freed once. A decoder that still has
        // use for the bytes counts them as its own.
        unsafe { libav_packet_free(self.0.as_ptr()) }
    }
}

/// An open decoder of either kind.
struct Open(NonNull<RawDecoder>);

impl Open {
    fn decode(&mut self, packet: &Packet) -> Result<(), i32> {
        // SAFETY: decoder and packet are open, the decoder is borrowed by this call alone, and the
        // packet is only read.
        match unsafe { libav_decode(self.0.as_ptr(), packet.0.as_ptr()) } {
            0 => Ok(()),
            error => Err(error),
        }
    }
}

impl Drop for Open {
    fn drop(&mut self) {
        // SAFETY: the decoder came from one of the opening functions and is closed once.
        unsafe { libav_close(self.0.as_ptr()) }
    }
}

/// An open decoder of pictures.
pub struct Decoder {
    open: Open,
    size: Size,
}

impl Decoder {
    /// `None` where libavcodec has no such decoder or cannot open it.
    pub fn open(size: Size) -> Option<Decoder> {
        Decoder::open_by(libav_open, size)
    }

    /// The same, of pictures with true colour.
    pub fn open_words(size: Size) -> Option<Decoder> {
        Decoder::open_by(libav_open_words, size)
    }

    /// The same, of Microsoft Video 1.
    pub fn open_video1(size: Size) -> Option<Decoder> {
        Decoder::open_by(libav_open_video1, size)
    }

    fn open_by(
        call: unsafe extern "C" fn(c_int, c_int) -> *mut RawDecoder,
        size: Size,
    ) -> Option<Decoder> {
        let (columns, rows) = (size.columns.try_into().ok()?, size.rows.try_into().ok()?);
        // SAFETY: each opening function takes two numbers.
        let raw = NonNull::new(unsafe { call(columns, rows) })?;
        Some(Decoder { open: Open(raw), size })
    }

    /// Decodes the next packet; libavcodec's number of an error.
    pub fn decode(&mut self, packet: &Packet) -> Result<(), i32> {
        self.open.decode(packet)
    }

    /// Writes the picture decoded last, row by row; false where there is none of the size.
    pub fn picture(&self, picture: &mut [u8]) -> bool {
        assert_eq!(picture.len(), self.size.pixels(), "a byte a pixel");
        // SAFETY: the decoder is open; it writes a byte for each pixel of the size that it was
        // opened with, which is the length of the slice.
        unsafe { libav_picture(self.open.0.as_ptr(), picture.as_mut_ptr()) == 1 }
    }

    /// Writes the words of the picture with true colour decoded last, row by row, low byte first; false where there
    /// is none of the size.
    pub fn words(&self, picture: &mut [u8]) -> bool {
        assert_eq!(picture.len(), 2 * self.size.pixels(), "two bytes a pixel");
        // SAFETY: the decoder is open; it writes two bytes for each pixel of the size that it was opened with,
        // which is the length of the slice.
        unsafe { libav_words(self.open.0.as_ptr(), picture.as_mut_ptr()) == 1 }
    }

    /// Gives the picture decoded last back to the decoder, as a player does that has shown it: a decoder
    /// that goes on from it would copy it first.
    pub fn release(&mut self) {
        // SAFETY: the decoder is open and borrowed by this call alone.
        unsafe { libav_release(self.open.0.as_ptr()) }
    }
}

/// An open decoder of compressed sound.
pub struct SoundDecoder(Open);

impl SoundDecoder {
    /// `None` where libavcodec has no such decoder or cannot open it.
    pub fn open(channels: usize) -> Option<SoundDecoder> {
        let channels = channels.try_into().ok()?;
        // SAFETY: it takes a number.
        let raw = NonNull::new(unsafe { libav_open_sound(channels) })?;
        Some(SoundDecoder(Open(raw)))
    }

    /// Decodes the next packet; libavcodec's number of an error.
    pub fn decode(&mut self, packet: &Packet) -> Result<(), i32> {
        self.0.decode(packet)
    }

    /// Writes the samples decoded last, left and right in turn. Gives their number, also where the
    /// slice is too short and nothing is written; `None` where there are none of 16 bits.
    pub fn samples(&self, samples: &mut [i16]) -> Option<usize> {
        // SAFETY: the decoder is open; address and length are those of a slice that is borrowed by
        // this call alone.
        let count =
            unsafe { libav_samples(self.0 .0.as_ptr(), samples.as_mut_ptr(), samples.len()) };
        count.try_into().ok()
    }
}
