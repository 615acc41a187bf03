//! An animated GIF. Each picture has its palette, so that every colour is exact; of pictures with true colour
//! those of 256 colours at most are.

use super::{Finished, Part, Pictures};
use crate::colours::{indexed, widened};
use crate::messages::{name, Failure};
use crate::walk::Picture;
use ::gif::{Encoder, EncodingError, Frame, Repeat};
use mve::PALETTE_BYTES;
use std::borrow::Cow;
use std::cell::RefCell;
use std::fs::File;
use std::io::{self, BufWriter, Write};
use std::path::Path;
use std::rc::Rc;

/// The unit of a delay, in microseconds.
const DELAY: u64 = 10_000;

/// The file, and what the next picture must know.
pub struct Gif {
    part: Part,
    file: Shared,
    /// From the first picture on, whose palette is that of the file.
    begun: Option<(Encoder<Shared>, [u8; PALETTE_BYTES])>,
    /// The microseconds of all pictures so far.
    elapsed: u64,
    /// How many pictures have more colours than a palette.
    reduced: usize,
}

impl Gif {
    pub fn begin(path: &Path) -> Result<Gif, Failure> {
        let (part, file) = Part::file(path)?;
        let file = Shared(Rc::new(RefCell::new(BufWriter::new(file))));
        Ok(Gif { part, file, begun: None, elapsed: 0, reduced: 0 })
    }

    fn write(&mut self, picture: &Picture<'_>, interval: u32) -> io::Result<()> {
        let (pixels, palette) = self.indices(picture);
        let delay = self.delay(interval);
        let (encoder, first) = match &mut self.begun {
            Some(begun) => begun,
            begun => begun.insert((begin(self.file.clone(), picture, &palette)?, palette)),
        };
        let frame = Frame {
            width: picture.width,
            height: picture.height,
            buffer: pixels,
            palette: (palette != *first).then(|| palette.to_vec()),
            delay,
            ..Frame::default()
        };
        encoder.write_frame(&frame).map_err(plain)
    }

    /// A palette of 8 bits a component, and an entry of it for each pixel.
    fn indices<'p>(&mut self, picture: &Picture<'p>) -> (Cow<'p, [u8]>, [u8; PALETTE_BYTES]) {
        if picture.words.is_empty() {
            return (Cow::Borrowed(picture.pixels), widened(picture.palette));
        }
        let (pixels, palette, is_exact) = indexed(picture.words);
        self.reduced += usize::from(!is_exact);
        (Cow::Owned(pixels), palette)
    }

    /// The delay of a picture: what is lost by rounding is carried on to the next.
    fn delay(&mut self, interval: u32) -> u16 {
        let before = rounded(self.elapsed);
        self.elapsed += u64::from(interval);
        (rounded(self.elapsed) - before) as u16 // ten minutes at most
    }
}

impl Pictures for Gif {
    fn add(&mut self, _: usize, picture: &Picture<'_>, interval: u32) -> Result<(), Failure> {
        self.write(picture, interval).map_err(|error| Failure::write(&self.part.target, error))
    }

    fn finish(self: Box<Self>) -> Result<Finished, Failure> {
        let Gif { part, mut file, begun, reduced, .. } = *self;
        // The encoder writes the last byte when it is dropped, and tells no error: there must be
        // room for it in the buffer.
        let emptied = file.flush();
        drop(begun);
        let flushed = emptied.and_then(|()| file.flush());
        flushed.map_err(|error| Failure::write(&part.target, error))?;
        let have = if reduced == 1 { "picture has" } else { "pictures have" };
        let words = "more than 256 colours, of which GIF keeps the high bits";
        let note =
            (reduced > 0).then(|| format!("{}: {reduced} {have} {words}", name(&part.target)));
        Ok(Finished { parts: vec![part], note })
    }
}

fn begin(file: Shared, picture: &Picture<'_>, palette: &[u8]) -> io::Result<Encoder<Shared>> {
    let mut encoder = Encoder::new(file, picture.width, picture.height, palette).map_err(plain)?;
    encoder.set_repeat(Repeat::Infinite).map_err(plain)?;
    Ok(encoder)
}

fn rounded(microseconds: u64) -> u64 {
    (microseconds + DELAY / 2) / DELAY
}

fn plain(error: EncodingError) -> io::Error {
    match error {
        EncodingError::Io(error) => error,
        EncodingError::Format(error) => io::Error::other(error),
    }
}

/// A file that is still in reach when the encoder has it.
#[derive(Clone)]
struct Shared(Rc<RefCell<BufWriter<File>>>);

impl Write for Shared {
    fn write(&mut self, bytes: &[u8]) -> io::Result<usize> {
        self.0.borrow_mut().write(bytes)
    }

    fn flush(&mut self) -> io::Result<()> {
        self.0.borrow_mut().flush()
    }
}
