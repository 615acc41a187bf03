//! libavcodec's decoder as one of the programs, where it is there.

use crate::program::Program;
use maker::{Packet, Size};

#[cfg(libavcodec)]
pub use there::{program, trailers, version, words};

/// No program: the bench was built without libavcodec.
#[cfg(not(libavcodec))]
pub fn program(_size: Size, _frames: &[Packet]) -> Option<Box<dyn Program>> {
    None
}

/// No program, likewise.
#[cfg(not(libavcodec))]
pub fn trailers(_size: Size, _frames: &[Vec<u8>]) -> Option<Box<dyn Program>> {
    None
}

/// No program, likewise.
#[cfg(not(libavcodec))]
pub fn words(_size: Size, _frames: &[Packet]) -> Option<Box<dyn Program>> {
    None
}

/// The library's version; else why it is not among the programs.
#[cfg(not(libavcodec))]
pub fn version() -> Result<String, &'static str> {
    Err("not there when the bench was built (Debian: libavcodec-dev)")
}

#[cfg(libavcodec)]
mod there {
    use super::{Packet, Program, Size};
    use crate::ffi;
    use crate::program::LIBAV;

    /// The library's version; else why it is not among the programs.
    pub fn version() -> Result<String, &'static str> {
        let (major, minor, micro) = ffi::version();
        match ffi::Decoder::open(Size::new(1, 1)) {
            Some(_) => Ok(format!("{major}.{minor}.{micro}")),
            None => Err("it was built without its decoder of Interplay video"),
        }
    }

    /// The decoder; `None` where libavcodec was built without it.
    pub fn program(size: Size, frames: &[Packet]) -> Option<Box<dyn Program>> {
        Some(Libav::boxed(ffi::Decoder::open(size)?, size, frames.iter().map(bytes)))
    }

    /// The decoder of pictures with true colour; `None` where libavcodec was built without it.
    pub fn words(size: Size, frames: &[Packet]) -> Option<Box<dyn Program>> {
        let packet = |frame| ffi::Packet::new(&bytes(frame)).expect("memory");
        let (decoder, picture) = (ffi::Decoder::open_words(size)?, vec![0; 2 * size.pixels()]);
        let packets = frames.iter().map(packet).collect();
        Some(Box::new(Words(Libav { decoder, packets, picture })))
    }

    /// libavcodec with pictures of words, of which it keeps bit 15 as the film has it.
    struct Words(Libav);

    impl Program for Words {
        fn name(&self) -> &'static str {
            LIBAV
        }

        fn run(&mut self, number: usize) -> Result<(), String> {
            self.0.run(number)
        }

        fn picture(&mut self) -> Option<&[u8]> {
            let Libav { decoder, picture, .. } = &mut self.0;
            assert!(decoder.words(picture), "libavcodec gives a picture of 15 bits");
            decoder.release();
            picture.iter_mut().skip(1).step_by(2).for_each(|high| *high &= 0x7F);
            Some(picture)
        }
    }

    /// The decoder of Microsoft Video 1; `None` where libavcodec was built without it.
    pub fn trailers(size: Size, frames: &[Vec<u8>]) -> Option<Box<dyn Program>> {
        Some(Libav::boxed(ffi::Decoder::open_video1(size)?, size, frames.iter().cloned()))
    }

    struct Libav {
        decoder: ffi::Decoder,
        packets: Vec<ffi::Packet>,
        /// The picture decoded last, without what stands behind each of the decoder's rows.
        picture: Vec<u8>,
    }

    impl Libav {
        fn boxed(
            decoder: ffi::Decoder,
            size: Size,
            frames: impl Iterator<Item = Vec<u8>>,
        ) -> Box<dyn Program> {
            let packet = |bytes: Vec<u8>| ffi::Packet::new(&bytes).expect("memory");
            let (packets, picture) = (frames.map(packet).collect(), vec![0; size.pixels()]);
            Box::new(Libav { decoder, packets, picture })
        }
    }

    impl Program for Libav {
        fn name(&self) -> &'static str {
            LIBAV
        }

        fn run(&mut self, number: usize) -> Result<(), String> {
            let decoded = self.decoder.decode(&self.packets[number]);
            decoded.map_err(|error| format!("error {error}"))
        }

        fn picture(&mut self) -> Option<&[u8]> {
            assert!(self.decoder.picture(&mut self.picture), "libavcodec gives an 8-bit picture");
            self.decoder.release();
            Some(&self.picture)
        }
    }

    /// A packet in the form that libavcodec's reader of MVE films hands on: format 11, "send", the
    /// lengths of data, map and skip map, then the data behind its 14 skipped bytes, then the map.
    fn bytes(packet: &Packet) -> Vec<u8> {
        const SKIPPED: usize = 14;
        let word = |length: usize| u16::try_from(length).expect("a word").to_le_bytes();
        let Packet { map, data, .. } = packet;
        let (data_length, map_length) = (word(SKIPPED + data.len()), word(map.len()));
        let parts: [&[u8]; 7] =
            [&[0x11, 1], &data_length, &map_length, &[0; 2], &[0; SKIPPED], data, map];
        parts.concat()
    }
}
