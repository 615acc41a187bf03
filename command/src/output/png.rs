//! PNG pictures in a folder: their indices and their palette as in the film, or their true colours.

use super::{Finished, Overwrite, Part, Pictures};
use crate::canvas::Canvas;
use crate::colours::widened;
use crate::messages::Failure;
use crate::walk::Picture;
use ::png::{BitDepth, ColorType, Encoder, EncodingError, FilterType};
use std::fs::{self, File};
use std::io::{BufWriter, Write};
use std::path::Path;

/// Numbered pictures, 000000.png and so on, by their numbers in the film.
pub struct Png {
    part: Part,
}

impl Png {
    pub fn begin(folder: &Path) -> Result<Png, Failure> {
        Ok(Png { part: Part::folder(folder)? })
    }
}

impl Pictures for Png {
    fn add(&mut self, number: usize, picture: &Picture<'_>, _: u32) -> Result<(), Failure> {
        let name = format!("{number:06}.png");
        let file = self.part.inside(&name).map_err(EncodingError::from);
        let written = file.and_then(|file| write(file, picture));
        written.map_err(|error| Failure::write(&self.part.target.join(name), error.into()))
    }

    fn finish(self: Box<Self>) -> Result<Finished, Failure> {
        Ok(Finished { parts: vec![self.part], note: None })
    }
}

fn write(file: File, picture: &Picture<'_>) -> Result<(), EncodingError> {
    let mut file = BufWriter::new(file);
    let mut encoder = Encoder::new(&mut file, picture.width.into(), picture.height.into());
    encoder.set_depth(BitDepth::Eight);
    let colours: Vec<u8>; // of a film with true colour
    let data = if picture.words.is_empty() {
        encoder.set_color(ColorType::Indexed);
        encoder.set_palette(widened(picture.palette).to_vec());
        encoder.set_filter(FilterType::NoFilter); // neighbours of indices are no differences
        picture.pixels
    } else {
        encoder.set_color(ColorType::Rgb);
        colours = picture.rgb().flatten().collect();
        &colours
    };
    let mut writer = encoder.write_header()?;
    writer.write_image_data(data)?;
    writer.finish()?;
    Ok(file.flush()?)
}

/// Writes one picture of red, green and blue, under a temporary name until it is complete.
pub fn write_canvas(target: &Path, canvas: &Canvas, overwrite: &Overwrite) -> Result<(), Failure> {
    let (part, file) = Part::file(target)?;
    encode(file, canvas).map_err(|error| Failure::write(target, error.into()))?;
    part.keep(overwrite)
}

fn encode(file: File, canvas: &Canvas) -> Result<(), EncodingError> {
    let mut file = BufWriter::new(file);
    let mut encoder = Encoder::new(&mut file, canvas.width as u32, canvas.height as u32);
    encoder.set_color(ColorType::Rgb);
    encoder.set_depth(BitDepth::Eight);
    let mut writer = encoder.write_header()?;
    writer.write_image_data(canvas.bytes())?;
    writer.finish()?;
    Ok(file.flush()?)
}

/// Sees to it that a folder has no numbered picture.
pub fn check(folder: &Path) -> Result<(), Failure> {
    let entries = fs::read_dir(folder).map_err(|error| Failure::write(folder, error))?;
    let mut names = entries.flatten().map(|entry| entry.file_name());
    match names.any(|name| is_numbered(&name.to_string_lossy())) {
        true => Err(Failure::HasPictures(folder.into())),
        false => Ok(()),
    }
}

fn is_numbered(name: &str) -> bool {
    let number = name.strip_suffix(".png").unwrap_or_default();
    number.len() >= 6 && number.bytes().all(|byte| byte.is_ascii_digit())
}

#[cfg(test)]
mod tests {
    use super::is_numbered;

    #[test]
    fn numbers() {
        for name in ["000000.png", "123456789.png"] {
            assert!(is_numbered(name), "{name}");
        }
        for name in ["00000.png", "000000.PNG", "00000a.png", "000000.ppm", ".png", "000000"] {
            assert!(!is_numbered(name), "{name}");
        }
    }
}
