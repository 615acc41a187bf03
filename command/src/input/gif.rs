//! The pictures of a GIF file, each as it is shown: laid over those before it.

use super::{check_size, Picture};
use crate::colours::narrowed;
use crate::messages::Failure;
use ::gif::{ColorOutput, DecodeOptions, DecodingError, DisposalMethod, Frame};
use std::fs::File;
use std::path::Path;

/// The unit of a delay, in microseconds.
const DELAY: u32 = 10_000;
/// A picture without a delay stays so long, as in browsers.
const NO_DELAY: u32 = 100_000;

pub fn each(
    path: &Path,
    take: &mut dyn FnMut(Picture) -> Result<(), Failure>,
) -> Result<(), Failure> {
    let file = File::open(path).map_err(|error| Failure::Read(path.into(), error))?;
    let mut options = DecodeOptions::new();
    options.set_color_output(ColorOutput::RGBA);
    let unread = |error: DecodingError| match error {
        DecodingError::Io(error) => Failure::Read(path.into(), error),
        error => Failure::input(path, format!("cannot be read as a GIF file: {error}")),
    };
    let mut decoder = options.read_info(file).map_err(unread)?;
    let (width, height) = (decoder.width().into(), decoder.height().into());
    check_size(path, width, height)?;
    let mut screen = Screen { width, height, pixels: vec![[0; 4]; width * height] };
    while let Some(frame) = decoder.read_next_frame().map_err(unread)? {
        let before = screen.pixels.clone();
        screen.lay(frame);
        take(screen.picture(frame.delay))?;
        match frame.dispose {
            DisposalMethod::Background => screen.clear(frame),
            DisposalMethod::Previous => screen.pixels = before,
            DisposalMethod::Any | DisposalMethod::Keep => {}
        }
    }
    Ok(())
}

/// What is shown: red, green, blue and how opaque; nothing at first.
struct Screen {
    width: usize,
    height: usize,
    pixels: Vec<[u8; 4]>,
}

impl Screen {
    /// Lays a frame over it, where the frame is opaque.
    fn lay(&mut self, frame: &Frame<'_>) {
        for (at, pixel) in self.places(frame).zip(frame.buffer.chunks_exact(4)) {
            if let (Some(at), &[red, green, blue, 255]) = (at, pixel) {
                self.pixels[at] = [red, green, blue, 255];
            }
        }
    }

    fn clear(&mut self, frame: &Frame<'_>) {
        for at in self.places(frame).flatten() {
            self.pixels[at] = [0; 4];
        }
    }

    /// Where each pixel of a frame goes; none for those outside.
    fn places(&self, frame: &Frame<'_>) -> impl Iterator<Item = Option<usize>> {
        let (width, height) = (self.width, self.height);
        let (left, top) = (usize::from(frame.left), usize::from(frame.top));
        let (across, down) = (usize::from(frame.width), usize::from(frame.height));
        (top..top + down).flat_map(move |y| {
            let row = left..left + across;
            row.map(move |x| (x < width && y < height).then_some(y * width + x))
        })
    }

    fn picture(&self, delay: u16) -> Picture {
        let mut picture = Picture { width: self.width, height: self.height, ..Picture::default() };
        picture.interval = Some(if delay == 0 { NO_DELAY } else { u32::from(delay) * DELAY });
        for &[red, green, blue, opaque] in &self.pixels {
            let (colour, exact) = narrowed([red, green, blue]);
            picture.pixels.push(colour);
            picture.rounded |= !exact;
            picture.transparent |= opaque == 0;
        }
        picture
    }
}
